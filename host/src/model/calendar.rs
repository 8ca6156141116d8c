//! The plain clock: a calendar is a day number from 1 January of century 0, year 00,
//! a second of that day, and a weekday that only midnights move.

use super::names::*;

pub const SECONDS_PER_DAY: u32 = 86_400;
pub const DAYS_PER_CENTURY: u32 = 36_525;
pub const DAYS_PER_CYCLE: u32 = 4 * DAYS_PER_CENTURY;
pub const SECONDS_PER_CYCLE: u64 = 12_623_040_000;

/// Four years, the first of them a leap year.
const DAYS_PER_FOUR_YEARS: u32 = 1_461;

/// A date of the calendar cycle.
#[derive(Clone, Copy, Debug, PartialEq, Eq)]
pub struct Date {
    pub century: u32,
    pub year: u32,
    pub month: u32,
    pub date: u32,
}

/// A second of the calendar cycle with its weekday.
#[derive(Clone, Copy, Debug, PartialEq, Eq)]
pub struct Moment {
    pub day: u32,
    pub second: u32,
    pub weekday: u32,
}

/// The number that two BCD nibbles stand for.
pub fn from_bcd(byte: u8) -> u32 {
    10 * u32::from(byte >> 4) + u32::from(byte & 0x0F)
}

/// The BCD byte of a number below 100.
pub fn to_bcd(number: u32) -> u8 {
    (number / 10 * 16 + number % 10) as u8
}

pub fn is_leap(year: u32) -> bool {
    year.is_multiple_of(4)
}

/// Days of a month in 1..=12.
pub fn month_length(month: u32, leap: bool) -> u32 {
    match month {
        2 if leap => 29,
        2 => 28,
        4 | 6 | 9 | 11 => 30,
        _ => 31,
    }
}

impl Date {
    /// Days from 1 January of century 0, year 00.
    pub fn day_number(self) -> u32 {
        let before_year = 365 * self.year + self.year.div_ceil(4);
        let leap = is_leap(self.year);
        let before_month: u32 = (1..self.month).map(|month| month_length(month, leap)).sum();
        self.century * DAYS_PER_CENTURY + before_year + before_month + self.date - 1
    }

    /// The date with this day number, found by dividing off centuries, four-year spans and years.
    pub fn of_day(day: u32) -> Date {
        let century = day / DAYS_PER_CENTURY % 4;
        let in_century = day % DAYS_PER_CENTURY;
        let in_span = in_century % DAYS_PER_FOUR_YEARS;
        // The first year of a span has 366 days, so day 365 still belongs to it.
        let year_of_span = in_span.saturating_sub(1) / 365;
        let year = in_century / DAYS_PER_FOUR_YEARS * 4 + year_of_span;
        let mut rest = if year_of_span == 0 { in_span } else { in_span - 1 - 365 * year_of_span };
        let mut month = 1;
        while rest >= month_length(month, is_leap(year)) {
            rest -= month_length(month, is_leap(year));
            month += 1;
        }
        Date { century, year, month, date: rest + 1 }
    }
}

impl Moment {
    /// The moment that valid registers hold.
    pub fn of_registers(registers: &[u8]) -> Moment {
        let date = Date {
            century: u32::from(registers[MONTH] >> 6),
            year: from_bcd(registers[YEAR]),
            month: from_bcd(registers[MONTH] & 0x1F),
            date: from_bcd(registers[DATE]),
        };
        Moment {
            day: date.day_number(),
            second: 3_600 * from_bcd(registers[HOURS] & 0x3F)
                + 60 * from_bcd(registers[MINUTES])
                + from_bcd(registers[SECONDS] & 0x7F),
            weekday: u32::from(registers[WEEKDAY]),
        }
    }

    /// The count of seconds from the start of the cycle.
    pub fn count(self) -> u64 {
        u64::from(self.day) * u64::from(SECONDS_PER_DAY) + u64::from(self.second)
    }

    /// The moment n seconds further on, round the cycle.
    pub fn later(self, n: u32) -> Moment {
        let seconds = self.second + n;
        let midnights = seconds / SECONDS_PER_DAY;
        Moment {
            day: (self.day + midnights) % DAYS_PER_CYCLE,
            second: seconds % SECONDS_PER_DAY,
            weekday: (self.weekday - 1 + midnights) % 7 + 1,
        }
    }

    pub fn date(self) -> Date {
        Date::of_day(self.day)
    }

    /// Writes the moment into the registers; the flag bits that share its bytes stay.
    pub fn write(self, registers: &mut [u8]) {
        let Date { century, year, month, date } = self.date();
        registers[SECONDS] = registers[SECONDS] & OSC_ST | to_bcd(self.second % 60);
        registers[MINUTES] = to_bcd(self.second / 60 % 60);
        registers[HOURS] = registers[HOURS] & (MD_H | M_MS) | to_bcd(self.second / 3_600);
        registers[WEEKDAY] = self.weekday as u8;
        registers[DATE] = to_bcd(date);
        registers[MONTH] = (century << 6) as u8 | to_bcd(month);
        registers[YEAR] = to_bcd(year);
    }
}
