//! The sixteen clock registers: which bits exist, what the watchdog register loads,
//! and when they hold a calendar.

use super::calendar::{from_bcd, is_leap, month_length};
use super::names::*;

/// The bits that exist in each register; the others are reserved and read 0.
pub const KEPT: [u8; 16] = [
    0x00, 0xFF, 0x7F, 0xFF, 0x07, 0x3F, 0xDF, 0xFF, // 00h..07h
    0xBF, 0xFF, 0xBF, 0xFF, 0xFF, 0xFF, 0xFF, 0xF0, // 08h..0Fh
];

/// The sixteenths that a value of register 09h loads into the watchdog, 0 for off.
pub fn watchdog_load(register: u8) -> u16 {
    let multiplier = u16::from(register >> 2 & 0x1F); // BMB4..0
    let resolution = (register >> 7) << 2 | register & 0x03; // RB2, RB1, RB0
    match resolution {
        0 => multiplier,
        1 => multiplier * 4,
        2 => multiplier * 16,
        3 => multiplier * 64,
        4 => multiplier * 960,
        _ => 0,
    }
}

/// A field's bits with the nibbles, the range and the place they stand at.
pub struct Field {
    pub at: usize,
    pub bits: u8,
    pub least: u32,
    pub most: u32,
}

/// Seconds, minutes, hours, weekday, date, month and year; flag and century bits apart.
pub const CALENDAR: [Field; 7] = [
    Field { at: SECONDS, bits: 0x7F, least: 0, most: 59 },
    Field { at: MINUTES, bits: 0x7F, least: 0, most: 59 },
    Field { at: HOURS, bits: 0x3F, least: 0, most: 23 },
    Field { at: WEEKDAY, bits: 0x07, least: 1, most: 7 },
    Field { at: DATE, bits: 0x3F, least: 1, most: 31 },
    Field { at: MONTH, bits: 0x1F, least: 1, most: 12 },
    Field { at: YEAR, bits: 0xFF, least: 0, most: 99 },
];

impl Field {
    pub fn nibbles_hold(&self, registers: &[u8]) -> bool {
        let byte = registers[self.at] & self.bits;
        byte & 0x0F <= 9 && byte >> 4 <= 9
    }

    pub fn range_holds(&self, registers: &[u8]) -> bool {
        let number = from_bcd(registers[self.at] & self.bits);
        self.least <= number && number <= self.most
    }
}

/// True if the date is not past the end of its month; a month out of range is another matter.
pub fn date_exists(registers: &[u8]) -> bool {
    let month = from_bcd(registers[MONTH] & 0x1F);
    let leap = is_leap(from_bcd(registers[YEAR]));
    from_bcd(registers[DATE] & 0x3F) <= month_length(month, leap)
}

/// True if the registers hold a valid calendar.
pub fn calendar_valid(registers: &[u8]) -> bool {
    CALENDAR.iter().all(|field| field.nibbles_hold(registers) && field.range_holds(registers))
        && date_exists(registers)
}
