//! The model's day counts against a clock that steps single seconds by plain carries.

mod clock;

use clock::Clock;
use stled325_host::driver::images::{aim_alarm, random_moment, random_valid};
use stled325_host::driver::random::Random;
use stled325_host::model::alarm::{matches_now, Alarm};
use stled325_host::model::calendar::{
    month_length, Date, Moment, DAYS_PER_CYCLE, SECONDS_PER_CYCLE, SECONDS_PER_DAY,
};
use stled325_host::model::Model;

impl Clock {
    /// The clock at the model's moment.
    fn of(moment: Moment) -> Clock {
        let Date { century, year, month, date } = moment.date();
        let (hour, minute, second) = (moment.second / 3_600, moment.second / 60 % 60, moment.second % 60);
        Clock { century, year, month, date, hour, minute, second, weekday: moment.weekday }
    }
}

#[test]
fn month_lengths_are_those_of_the_almanac() {
    let common = [31, 28, 31, 30, 31, 30, 31, 31, 30, 31, 30, 31];
    for month in 1..=12 {
        let length = common[month as usize - 1];
        assert_eq!(month_length(month, false), length);
        assert_eq!(month_length(month, true), length + u32::from(month == 2));
    }
}

#[test]
fn every_day_of_the_cycle_has_its_date() {
    let start = Moment { day: 0, second: 0, weekday: 6 };
    let mut clock = Clock::of(start);
    assert_eq!((clock.century, clock.year, clock.month, clock.date), (0, 0, 1, 1));
    for day in 0..DAYS_PER_CYCLE {
        let date = Date { century: clock.century, year: clock.year, month: clock.month, date: clock.date };
        assert_eq!(Date::of_day(day), date);
        assert_eq!(date.day_number(), day);
        clock.next_day();
    }
    assert_eq!((clock.century, clock.year, clock.month, clock.date), (0, 0, 1, 1));
    assert_eq!(SECONDS_PER_CYCLE, u64::from(DAYS_PER_CYCLE) * u64::from(SECONDS_PER_DAY));
}

#[test]
fn seconds_step_by_carries() {
    let mut random = Random::new(7);
    for _ in 0..200 {
        let mut moment = random_moment(&mut random);
        let mut clock = Clock::of(moment);
        for _ in 0..200 {
            moment = moment.later(1);
            clock.next_second();
            assert_eq!(Clock::of(moment), clock);
        }
    }
}

#[test]
fn long_moves_are_many_carries() {
    let mut random = Random::new(8);
    for _ in 0..20 {
        let start = random_moment(&mut random);
        let mut clock = Clock::of(start);
        let n = random.below(1_000_000);
        (0..n).for_each(|_| clock.next_second());
        assert_eq!(Clock::of(start.later(n)), clock);
    }
    // One whole longest cut, second by second, over the end of the cycle.
    let start = Moment { day: DAYS_PER_CYCLE - 100, second: 80_000, weekday: 3 };
    let mut clock = Clock::of(start);
    (0..31_622_400).for_each(|_| clock.next_second());
    assert_eq!(Clock::of(start.later(31_622_400)), clock);
}

#[test]
fn cuts_match_as_single_seconds_do() {
    let mut random = Random::new(9);
    for _ in 0..1_500 {
        let mut image = random_valid(&mut random);
        let n = random.below(20_000);
        if random.once_in(2) {
            let ahead = random.below(n + 2);
            aim_alarm(&mut image, &mut random, ahead);
        }
        let start = Moment::of_registers(&image);
        let alarm = Alarm::of_registers(&image);
        let mut registers: [u8; 16] = image[..16].try_into().unwrap();
        let mut moment = start;
        let mut matched = false;
        for _ in 0..n {
            moment = moment.later(1);
            moment.write(&mut registers);
            matched |= matches_now(&registers);
        }
        assert_eq!(alarm.matches_within(start, n), matched, "{n} seconds from {image:02X?}");
    }
}

#[test]
fn cuts_of_many_days_match_as_their_days_do() {
    let mut random = Random::new(10);
    for _ in 0..3_000 {
        let mut image = random_valid(&mut random);
        let n = random.below(31_622_401);
        let ahead = random.below(n + 1);
        aim_alarm(&mut image, &mut random, ahead);
        let start = Moment::of_registers(&image);
        let alarm = Alarm::of_registers(&image);
        // A cut split at any second matches exactly if one of its parts does.
        let part = random.below(n + 1);
        let both = alarm.matches_within(start, part) || alarm.matches_within(start.later(part), n - part);
        assert_eq!(alarm.matches_within(start, n), both);
    }
}

#[test]
fn ticks_and_cuts_keep_the_same_time() {
    let mut random = Random::new(11);
    for _ in 0..300 {
        let mut ticked = random_valid(&mut random);
        ticked[1] &= 0x7F;
        let mut cut = ticked;
        let n = random.below(30);
        (0..16 * n).for_each(|_| assert_eq!(Model::correct().tick(&mut ticked), 0));
        assert_eq!(Model::correct().supply_return(&mut cut, n), 0);
        assert_eq!(ticked[..17], cut[..17]);
    }
}
