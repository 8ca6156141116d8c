//! Series of supply returns, refused ones among them, held against the plain clock
//! and against the one return after their sum.

use super::coverage::Mark;
use super::events::random_cut;
use super::images::{aim_alarm, random_valid};
use super::random::Random;
use super::trial::{hex, Call};
use super::{Checked, Driver, Finding};
use crate::model::alarm::Alarm;
use crate::model::calendar::{Moment, SECONDS_PER_CYCLE, SECONDS_PER_DAY};
use crate::model::names::*;
use crate::panel::Panel;

/// Supply returns one after the other from a valid image.
struct Series {
    start: Image,
    cuts: Vec<u32>,
}

/// What the plain clock and the alarm rule say of a series of accepted cuts.
struct Expected {
    count: u64,
    weekday: u32,
    alarm_flag: bool,
}

impl Series {
    /// One to six cuts, some too long, with the alarm often aimed at a second that they reach.
    fn random(random: &mut Random) -> Series {
        let mut series = Series { start: random_valid(random), cuts: Vec::new() };
        for _ in 0..random.from_to(1, 6) {
            let short = random.once_in(2);
            let cut = if short { random.below(200_000) } else { random_cut(random) };
            series.cuts.push(if random.once_in(5) { cut.saturating_add(LONGEST_CUT) } else { cut });
        }
        let sum = series.sum();
        if random.once_in(2) && sum <= u64::from(LONGEST_CUT) {
            let ahead = random.below(sum as u32 + 2).min(LONGEST_CUT);
            aim_alarm(&mut series.start, random, ahead);
        }
        series
    }

    fn accepted(&self) -> impl Iterator<Item = u32> + '_ {
        self.cuts.iter().copied().filter(|&n| n <= LONGEST_CUT)
    }

    /// The sum of the accepted cuts.
    fn sum(&self) -> u64 {
        self.accepted().map(u64::from).sum()
    }

    /// Reads the series as a whole: the sum on the count, a weekday for each midnight, the alarm over all seconds.
    fn expected(&self) -> Expected {
        let start = &self.start;
        let from = Moment::of_registers(&start[..]);
        let runs = !has(start, SECONDS, OSC_ST);
        let end = from.count() + if runs { self.sum() } else { 0 };
        let midnights = end / u64::from(SECONDS_PER_DAY) - from.count() / u64::from(SECONDS_PER_DAY);
        let weekday = ((u64::from(from.weekday) - 1 + midnights) % 7 + 1) as u32;
        let both = start[ALARM_MONTH] & (AFE | ABE) == AFE | ABE;
        let alarm = Alarm::of_registers(&start[..]);
        let mut reached = from;
        let mut matched = false;
        for n in self.accepted() {
            matched |= alarm.matches_within(reached, n);
            reached = reached.later(n);
        }
        Expected {
            count: end % SECONDS_PER_CYCLE,
            weekday,
            alarm_flag: has(start, FLAGS, ALARM_FLAG) || runs && both && matched,
        }
    }

    /// Holds the image after the series against the plain clock and the alarm rule.
    fn check(&self, image: &Image) -> Checked<()> {
        let expected = self.expected();
        let end = Moment::of_registers(&image[..]);
        if (end.count(), end.weekday) != (expected.count, expected.weekday) {
            return Err(self.wrong("the clock stands elsewhere", image));
        }
        if has(image, FLAGS, ALARM_FLAG) != expected.alarm_flag {
            return Err(self.wrong("the alarm flag", image));
        }
        Ok(())
    }

    fn wrong(&self, words: &str, image: &Image) -> Finding {
        let Series { start, cuts } = self;
        let (before, after) = (hex(start.as_slice()), hex(image.as_slice()));
        Finding::Series(format!(
            "series {cuts:?}\nimage before {before}\nimage after  {after}\nwrong: {words}"
        ))
    }
}

impl<A: Panel, B: Panel> Driver<A, B> {
    pub(super) fn series(&mut self) -> Checked<()> {
        let series = Series::random(&mut self.random);
        let mut image = series.start;
        let mut any = false;
        for &n in &series.cuts {
            let number = self.call(&mut image, &Call::SupplyReturn(n))?;
            if (number != 0) != (n > LONGEST_CUT) {
                return Err(series.wrong("a return is refused exactly above the limit", &image));
            }
            any |= number == 0;
        }
        if !any {
            self.coverage.mark(Mark::SeriesNone);
            return if image == series.start {
                Ok(())
            } else {
                Err(series.wrong("refused returns leave the image", &image))
            };
        }
        series.check(&image)?;
        let sum = series.sum();
        if sum > u64::from(LONGEST_CUT) {
            self.coverage.mark(Mark::SeriesBeyond);
            return Ok(());
        }
        self.coverage.mark(Mark::SeriesWithin);
        let mut single = series.start;
        self.call(&mut single, &Call::SupplyReturn(sum as u32))?;
        if image != single {
            return Err(series.wrong("one return after the sum gives another image", &image));
        }
        Ok(())
    }
}
