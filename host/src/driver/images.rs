//! Random valid images over the full range of every field, with a liking for the moments
//! at which something is about to happen.

use super::random::Random;
use crate::model::calendar::{
    is_leap, month_length, Date, Moment, DAYS_PER_CENTURY, DAYS_PER_CYCLE, SECONDS_PER_DAY,
};
use crate::model::names::*;
use crate::model::registers::{watchdog_load, KEPT};
use crate::model::valid::{guard_load, is_valid};
use crate::model::Model;

pub fn powered_up() -> Image {
    let mut image = [0; IMAGE_LEN];
    Model::correct().power_up(&mut image);
    image
}

/// A day at the end of a month, a year, a century or the cycle, or just past one.
fn day_at_an_end(random: &mut Random) -> u32 {
    let century = random.below(4);
    if random.once_in(6) {
        return (century + 1) * DAYS_PER_CENTURY - 1;
    }
    let (any_year, any_month) = (random.below(100), random.from_to(1, 12));
    let year = random.pick(&[0, 0, 4, 23, 24, 96, 98, 99, 99, any_year]);
    let month = random.pick(&[2, 2, 2, 12, 12, 4, 6, 9, 11, any_month]);
    let length = month_length(month, is_leap(year));
    let date = random.pick(&[1, 28, length, length, length - 1]);
    Date { century, year, month, date }.day_number()
}

/// A second of the day, often just before a minute, an hour or the day ends.
fn random_time(random: &mut Random) -> u32 {
    match random.below(6) {
        0 => SECONDS_PER_DAY - random.from_to(1, 3),
        1 => random.below(24) * 3_600 + 3_600 - random.from_to(1, 2),
        2 => random.below(1_440) * 60 + 59,
        3 => random.pick(&[0, 43_199, 43_200, 46_799, 86_399]),
        _ => random.below(SECONDS_PER_DAY),
    }
}

pub fn random_moment(random: &mut Random) -> Moment {
    let day = if random.once_in(2) { day_at_an_end(random) } else { random.below(DAYS_PER_CYCLE) };
    Moment { day, second: random_time(random), weekday: random.from_to(1, 7) }
}

/// Sets the alarm so that it matches the second `ahead` of the clock, as far as its fields are
/// compared; sometimes one field is then moved off.
pub fn aim_alarm(image: &mut Image, random: &mut Random, ahead: u32) {
    let mut at = [0; 16];
    Moment::of_registers(&image[..]).later(ahead).write(&mut at);
    image[ALARM_MONTH] = random.byte() & (AFE | ABE) | if random.once_in(3) { 0 } else { AFE | ABE };
    image[ALARM_MONTH] |= at[MONTH] & 0x1F;
    image[ALARM_DATE] = at[DATE];
    image[ALARM_HOUR] = at[HOURS];
    image[ALARM_MINUTE] = at[MINUTES];
    image[ALARM_SECOND] = at[SECONDS];
    image[ALARM_WEEKDAY] = image[ALARM_WEEKDAY] & WDFEN | at[WEEKDAY] << 4;
    if random.once_in(3) {
        let spoilt = ALARM_MONTH + random.below(6) as usize;
        let bits = [0x1F, 0x3F, 0x3F, 0x7F, 0x7F, 0x70][spoilt - ALARM_MONTH];
        image[spoilt] ^= match random.below(3) {
            0 => 1 << random.below(8) & bits,
            1 => random.byte() & bits,
            // Moves ten units into the lower nibble, which is then no BCD any more.
            _ if spoilt != ALARM_WEEKDAY && image[spoilt] & 0x10 != 0 && image[spoilt] & 0x0F <= 5 => {
                image[spoilt] ^ (image[spoilt] - 0x06)
            }
            _ => 0,
        };
    }
    set_repeats(image, random);
}

/// Sets the six repeat bits: those of a daily, weekly or hourly alarm, or any.
fn set_repeats(image: &mut Image, random: &mut Random) {
    let (date, hour, minute, second) = match random.below(7) {
        0 => (RPT4 | RPT5, RPT6, 0, 0),
        1 => (RPT4 | RPT5, 0, 0, 0),
        2 => (RPT4 | RPT5, RPT3, RPT2, 0),
        3 => (RPT4 | RPT5, RPT3, RPT2, RPT1),
        4 => (0, RPT6, 0, 0),
        5 => (RPT5, RPT6, 0, 0),
        _ => (random.byte() & 0xC0, random.byte() & 0xC0, random.byte() & 0x80, random.byte() & 0x80),
    };
    image[ALARM_DATE] = image[ALARM_DATE] & 0x3F | date;
    image[ALARM_HOUR] = image[ALARM_HOUR] & 0x3F | hour;
    image[ALARM_MINUTE] = image[ALARM_MINUTE] & 0x7F | minute;
    image[ALARM_SECOND] = image[ALARM_SECOND] & 0x7F | second;
}

/// A rest from 0 to `most`, often 0, 1 or the most.
fn random_rest(random: &mut Random, most: u16) -> u16 {
    match random.below(5) {
        0 => 0,
        1 => most,
        2 | 3 => most.min(random.from_to(1, 3) as u16),
        _ => random.from_to(0, u32::from(most)) as u16,
    }
}

/// A word of keys: none, few or any.
pub fn random_keys(random: &mut Random) -> u16 {
    match random.below(4) {
        0 => 0,
        1 => 1 << random.below(16),
        2 => 1 << random.below(16) | 1 << random.below(16),
        _ => random.word(),
    }
}

fn random_registers(image: &mut Image, random: &mut Random) {
    for at in 0..16 {
        image[at] = random.byte() & KEPT[at];
    }
    if !random.once_in(6) {
        image[SECONDS] &= !OSC_ST;
    }
    image[SECONDS] &= OSC_ST;
    image[HOURS] &= if random.once_in(3) { MD_H | M_MS } else { 0 };
    random_moment(random).write(&mut image[..]);
}

/// Draws bytes 16 to 21, from the sixteenths to the set-up.
fn random_state(image: &mut Image, random: &mut Random) {
    image[SIXTEENTHS] = if random.once_in(2) { 15 } else { random.below(16) as u8 };
    image[FLAGS] = random.below(4) as u8;
    image[INTERRUPT] = if random.once_in(2) { 0 } else { random.byte() & random.byte() };
    image[PINS] = random.below(8) as u8;
    image[CONFIGURATION] = random.byte() & 0x2F;
    let protocol = random.pick(&[PROTOCOL_OFF, RC5, NEC, NEC]);
    let guard_value = if random.once_in(2) { random.below(3) } else { random.below(16) };
    image[SETUP] = protocol << 4 | guard_value as u8;
}

/// Draws what is left of the guard and of the watchdog; in standby no guard runs.
fn random_rests(image: &mut Image, random: &mut Random) {
    if !has(image, PINS, STBY) {
        set_word(image, GUARD_LEFT, random_rest(random, guard_load(image)));
    }
    set_word(image, WATCHDOG_LEFT, random_rest(random, watchdog_load(image[WATCHDOG])));
}

/// Draws the keys' words and the remote store.
fn random_inputs(image: &mut Image, random: &mut Random) {
    for at in [HOT_KEYS, LAST_SAMPLE, ACCEPTED_KEYS, KEY_STORE] {
        set_word(image, at, random_keys(random));
    }
    if random.once_in(2) {
        image[REMOTE_FRESH] = 1;
        image[REMOTE_COMMAND] = random.byte();
    }
}

fn random_display(image: &mut Image, random: &mut Random) {
    image[DIGITS] = random.from_to(1, 5) as u8;
    image[DISPLAY_CONTROL] = random.byte() & 0x1F | if random.once_in(2) { DISPLAY_ON } else { 0 };
    for digit in &mut image[DIGIT_BYTES..UNUSED] {
        *digit = random.byte();
    }
}

/// Leaves the alarm as it is, or aims it at this second, the next or one of the next forty.
fn random_aim(image: &mut Image, random: &mut Random) {
    let ahead = match random.below(4) {
        0 => return,
        1 => 0,
        2 => 1,
        _ => random.from_to(1, 40),
    };
    aim_alarm(image, random, ahead);
}

/// Any valid image: every value of every field can come up, odd combinations too.
pub fn random_valid(random: &mut Random) -> Image {
    let mut image = [0; IMAGE_LEN];
    random_registers(&mut image, random);
    random_state(&mut image, random);
    random_rests(&mut image, random);
    random_inputs(&mut image, random);
    random_display(&mut image, random);
    random_aim(&mut image, random);
    debug_assert!(is_valid(&image));
    image
}
