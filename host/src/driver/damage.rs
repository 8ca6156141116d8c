//! Damaged images: one clause of validity broken, all others kept.

use super::random::Random;
use crate::model::calendar::{from_bcd, is_leap, month_length, to_bcd};
use crate::model::names::*;
use crate::model::registers::{watchdog_load, CALENDAR, KEPT};
use crate::model::valid::{guard_load, Clause};

/// Some of the bits, at least one.
fn some_bits(random: &mut Random, bits: u8) -> u8 {
    match random.byte() & bits {
        0 => bits & bits.wrapping_neg(),
        some => some,
    }
}

/// A word above `most`, often the next one.
fn word_above(random: &mut Random, most: u16) -> u16 {
    let next = u32::from(most) + 1;
    let above = if random.once_in(2) { next } else { random.from_to(next, 0xFFFF) };
    above as u16
}

/// Breaks exactly this clause of a valid image.
pub fn broken_in(image: &Image, clause: Clause, random: &mut Random) -> Image {
    let mut image = *image;
    match clause {
        Clause::Reserved(at) => image[at] |= some_bits(random, !KEPT[at]),
        Clause::Nibbles(field) => break_nibbles(&mut image, CALENDAR[field].at, random),
        Clause::Range(field) => break_range(&mut image, CALENDAR[field].at, random),
        Clause::DateExists => break_date(&mut image, random),
        Clause::Sixteenths => image[SIXTEENTHS] = random.from_to(16, 255) as u8,
        Clause::Flags => image[FLAGS] |= some_bits(random, 0xFC),
        Clause::Pins => image[PINS] |= some_bits(random, 0xF8),
        Clause::ConfigurationB4 => image[CONFIGURATION] |= 0x10,
        Clause::ConfigurationB6B7 => image[CONFIGURATION] |= some_bits(random, 0xC0),
        Clause::SetupB7 => image[SETUP] |= 0x80,
        Clause::Protocol => {
            image[SETUP] = image[SETUP] & 0x0F | random.pick(&[1, 3, 5, 6, 7]) << 4;
        }
        Clause::GuardWithinValue => {
            image[PINS] &= !STBY;
            let load = guard_load(&image);
            set_word(&mut image, GUARD_LEFT, word_above(random, load));
        }
        Clause::NoGuardInStandby => run_guard_in_standby(&mut image, random),
        Clause::WatchdogWithinLoad => {
            let load = watchdog_load(image[WATCHDOG]);
            set_word(&mut image, WATCHDOG_LEFT, word_above(random, load));
        }
        Clause::Fresh => image[REMOTE_FRESH] = random.from_to(2, 255) as u8,
        Clause::RemoteAddress => image[REMOTE_ADDRESS] = random.from_to(1, 255) as u8,
        Clause::CommandOnlyFresh => {
            image[REMOTE_FRESH] = 0;
            image[REMOTE_COMMAND] = random.from_to(1, 255) as u8;
        }
        Clause::DigitsAtLeastOne => image[DIGITS] = 0,
        Clause::DigitsAtMostFive => image[DIGITS] = random.from_to(6, 255) as u8,
        Clause::DisplayControl => image[DISPLAY_CONTROL] |= some_bits(random, 0xE0),
        Clause::Unused(at) => image[at] = random.from_to(1, 255) as u8,
    }
    image
}

/// Puts a date into the calendar that its month lacks.
fn break_date(image: &mut Image, random: &mut Random) {
    let month = random.pick(&[2, 4, 6, 9, 11]);
    image[MONTH] = image[MONTH] & 0xC0 | to_bcd(month);
    let length = month_length(month, is_leap(from_bcd(image[YEAR])));
    image[DATE] = to_bcd(random.from_to(length + 1, 31));
}

/// Lets the guard run within its value while STBY is high.
fn run_guard_in_standby(image: &mut Image, random: &mut Random) {
    image[PINS] |= STBY;
    image[SETUP] |= random.from_to(1, 15) as u8;
    let left = random.from_to(1, u32::from(guard_load(image)));
    set_word(image, GUARD_LEFT, left as u16);
}

/// Puts a nibble above 9 into the field such that its number stays in range.
fn break_nibbles(image: &mut Image, at: usize, random: &mut Random) {
    let units = random.from_to(10, 15) as u8;
    match at {
        SECONDS => image[at] = image[at] & OSC_ST | (random.below(4) as u8) << 4 | units,
        MINUTES => image[at] = (random.below(4) as u8) << 4 | units,
        HOURS => image[at] = image[at] & (MD_H | M_MS) | units,
        DATE => image[at] = units,
        MONTH => {
            // Month 0Ah to 0Ch counts as 10 to 12; the date is then in any month.
            image[at] = image[at] & 0xC0 | random.from_to(10, 12) as u8;
            image[DATE] = image[DATE].min(0x28);
        }
        YEAR => {
            // Leap or not, the 28th exists.
            let tens = random.below(9) as u8;
            image[at] = if random.once_in(2) { tens << 4 | units } else { units << 4 | tens };
            image[DATE] = image[DATE].min(0x28);
        }
        _ => unreachable!("no such field"),
    }
}

/// Puts two sound nibbles into the field whose number is out of range.
fn break_range(image: &mut Image, at: usize, random: &mut Random) {
    match at {
        SECONDS => image[at] = image[at] & OSC_ST | to_bcd(random.from_to(60, 79)),
        MINUTES => image[at] = to_bcd(random.from_to(60, 79)),
        HOURS => image[at] = image[at] & (MD_H | M_MS) | to_bcd(random.from_to(24, 39)),
        WEEKDAY => image[at] = 0,
        DATE => image[at] = 0,
        MONTH => {
            let month = if random.once_in(2) { 0 } else { random.from_to(13, 19) };
            image[at] = image[at] & 0xC0 | to_bcd(month);
        }
        _ => unreachable!("no such field"),
    }
}
