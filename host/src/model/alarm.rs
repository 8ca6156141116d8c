//! The alarm: one reading over the register bytes for a tick,
//! and one over numbers for all the seconds that a supply cut reaches.

use super::calendar::{from_bcd, Date, Moment, SECONDS_PER_DAY};
use super::names::*;

/// True if the registers' own second matches the registers' own alarm.
///
/// The clock's bytes are sound BCD, so alarm bits that are no possible time equal none of them.
pub fn matches_now(registers: &[u8]) -> bool {
    let free = |at: usize, repeat: u8| registers[at] & repeat != 0;
    (free(ALARM_SECOND, RPT1) || registers[ALARM_SECOND] & 0x7F == registers[SECONDS] & 0x7F)
        && (free(ALARM_MINUTE, RPT2) || registers[ALARM_MINUTE] & 0x7F == registers[MINUTES])
        && (free(ALARM_HOUR, RPT3) || registers[ALARM_HOUR] & 0x3F == registers[HOURS] & 0x3F)
        && (free(ALARM_DATE, RPT4) || registers[ALARM_DATE] & 0x3F == registers[DATE])
        && (free(ALARM_DATE, RPT5) || registers[ALARM_MONTH] & 0x1F == registers[MONTH] & 0x1F)
        && (free(ALARM_HOUR, RPT6) || registers[ALARM_WEEKDAY] >> 4 & 0x07 == registers[WEEKDAY])
}

/// What one field of the alarm asks of the clock.
#[derive(Clone, Copy, Debug, PartialEq, Eq)]
enum Asked {
    Anything,
    Only(u32),
    Impossible,
}

impl Asked {
    /// A field with its repeat bit and its BCD bits, possible from `least` to `most`.
    fn of(repeat: bool, bits: u8, least: u32, most: u32) -> Asked {
        let number = from_bcd(bits);
        if repeat {
            Asked::Anything
        } else if bits & 0x0F <= 9 && least <= number && number <= most {
            Asked::Only(number)
        } else {
            Asked::Impossible
        }
    }

    fn allows(self, number: u32) -> bool {
        match self {
            Asked::Anything => true,
            Asked::Only(one) => one == number,
            Asked::Impossible => false,
        }
    }

    /// How many of the numbers 0, 1, .. below `limit` are allowed.
    fn below(self, limit: u32) -> u32 {
        match self {
            Asked::Anything => limit,
            Asked::Only(one) => u32::from(one < limit),
            Asked::Impossible => 0,
        }
    }
}

/// The alarm's six fields as numbers.
pub struct Alarm {
    second: Asked,
    minute: Asked,
    hour: Asked,
    date: Asked,
    month: Asked,
    weekday: Asked,
}

impl Alarm {
    pub fn of_registers(registers: &[u8]) -> Alarm {
        let free = |at: usize, repeat: u8| registers[at] & repeat != 0;
        Alarm {
            second: Asked::of(free(ALARM_SECOND, RPT1), registers[ALARM_SECOND] & 0x7F, 0, 59),
            minute: Asked::of(free(ALARM_MINUTE, RPT2), registers[ALARM_MINUTE] & 0x7F, 0, 59),
            hour: Asked::of(free(ALARM_HOUR, RPT3), registers[ALARM_HOUR] & 0x3F, 0, 23),
            date: Asked::of(free(ALARM_DATE, RPT4), registers[ALARM_DATE] & 0x3F, 1, 31),
            month: Asked::of(free(ALARM_DATE, RPT5), registers[ALARM_MONTH] & 0x1F, 1, 12),
            weekday: Asked::of(free(ALARM_HOUR, RPT6), registers[ALARM_WEEKDAY] >> 4 & 0x07, 1, 7),
        }
    }

    fn allows_day(&self, date: Date, weekday: u32) -> bool {
        self.date.allows(date.date) && self.month.allows(date.month) && self.weekday.allows(weekday)
    }

    /// How many seconds of a day before this one have a time that the alarm allows.
    fn times_before(&self, second: u32) -> u32 {
        let (hour, minute, second) = (second / 3_600, second / 60 % 60, second % 60);
        let whole_hours = self.hour.below(hour) * self.minute.below(60) * self.second.below(60);
        let whole_minutes = self.minute.below(minute) * self.second.below(60);
        let seconds = u32::from(self.minute.allows(minute)) * self.second.below(second);
        whole_hours + u32::from(self.hour.allows(hour)) * (whole_minutes + seconds)
    }

    /// True if one of the n seconds after `start` matches.
    pub fn matches_within(&self, start: Moment, n: u32) -> bool {
        if n == 0 || self.times_before(SECONDS_PER_DAY) == 0 {
            return false;
        }
        let (first, last) = (start.second + 1, start.second + n);
        (first / SECONDS_PER_DAY..=last / SECONDS_PER_DAY).any(|days_on| {
            let midnight = days_on * SECONDS_PER_DAY;
            let from = first.max(midnight) - midnight;
            let to = last.min(midnight + SECONDS_PER_DAY - 1) - midnight;
            let day = start.later(midnight.saturating_sub(start.second));
            self.allows_day(day.date(), day.weekday) && self.times_before(to + 1) > self.times_before(from)
        })
    }
}
