//! Standby: how it begins and ends, and which interrupt bit a source sets in each state.

use super::names::*;
use super::valid::guard_load;

/// The four sources of an interrupt, by the bit each sets with STBY low;
/// with STBY high it is the bit four places lower.
#[derive(Clone, Copy, PartialEq, Eq)]
#[repr(u8)]
pub enum Source {
    Key = 0x80,
    Remote = 0x40,
    WakeUp = 0x20,
    Rtc = 0x10,
}

pub fn in_standby(image: &Image) -> bool {
    has(image, PINS, STBY)
}

/// Standby begins, from STBY low only.
pub fn begin_standby(image: &mut Image) {
    if !in_standby(image) {
        image[PINS] |= STBY;
        set_word(image, GUARD_LEFT, 0);
    }
}

/// Standby ends, from STBY high only.
pub fn end_standby(image: &mut Image) {
    if in_standby(image) {
        image[PINS] &= !STBY;
        set_word(image, GUARD_LEFT, guard_load(image));
    }
}

/// A source reports: its bit of the present state is set, and standby ends.
pub fn report(image: &mut Image, source: Source) {
    let bit = source as u8;
    image[INTERRUPT] |= if in_standby(image) { bit >> 4 } else { bit };
    end_standby(image);
}
