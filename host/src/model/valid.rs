//! When an image is valid, clause by clause; it is valid exactly if every clause holds.

use super::names::*;
use super::registers::{date_exists, watchdog_load, CALENDAR, KEPT};

/// The clauses of validity, each of which can be broken alone.
#[derive(Clone, Copy, Debug, PartialEq, Eq)]
pub enum Clause {
    /// A reserved bit of the register is 0.
    Reserved(usize),
    /// Both nibbles of the calendar field are at most 9.
    Nibbles(usize),
    /// The calendar field is in its range.
    Range(usize),
    DateExists,
    Sixteenths,
    Flags,
    Pins,
    ConfigurationB4,
    ConfigurationB6B7,
    SetupB7,
    Protocol,
    GuardWithinValue,
    NoGuardInStandby,
    WatchdogWithinLoad,
    Fresh,
    RemoteAddress,
    CommandOnlyFresh,
    DigitsAtLeastOne,
    DigitsAtMostFive,
    DisplayControl,
    Unused(usize),
}

use Clause::*;

/// The clauses that stand on their own, beside those of registers, fields and unused bytes.
const SINGLE: [Clause; 18] = [
    DateExists,
    Sixteenths,
    Flags,
    Pins,
    ConfigurationB4,
    ConfigurationB6B7,
    SetupB7,
    Protocol,
    GuardWithinValue,
    NoGuardInStandby,
    WatchdogWithinLoad,
    Fresh,
    RemoteAddress,
    CommandOnlyFresh,
    DigitsAtLeastOne,
    DigitsAtMostFive,
    DisplayControl,
    Unused(UNUSED),
];

/// Every clause that a one-clause damage can break.
pub fn clauses() -> Vec<Clause> {
    let mut all: Vec<Clause> = (0..16).filter(|&at| KEPT[at] != 0xFF).map(Reserved).collect();
    // Weekdays have one small nibble, so only their range can break.
    all.extend((0..CALENDAR.len()).filter(|&field| CALENDAR[field].at != WEEKDAY).map(Nibbles));
    // Two sound nibbles are always in the range of years.
    all.extend((0..CALENDAR.len()).filter(|&field| CALENDAR[field].at != YEAR).map(Range));
    all.extend(SINGLE.iter().filter(|clause| !matches!(clause, Unused(_))));
    all.extend((UNUSED..IMAGE_LEN).map(Unused));
    all
}

impl Clause {
    pub fn holds(self, image: &Image) -> bool {
        let guard = word(image, GUARD_LEFT);
        let standby = has(image, PINS, STBY);
        match self {
            Reserved(at) => image[at] & !KEPT[at] == 0,
            Nibbles(field) => CALENDAR[field].nibbles_hold(image),
            Range(field) => CALENDAR[field].range_holds(image),
            DateExists => date_exists(image),
            Sixteenths => image[SIXTEENTHS] <= 15,
            Flags => image[FLAGS] & !(ALARM_FLAG | WATCHDOG_FLAG) == 0,
            Pins => image[PINS] & !(READY | WAKE_UP | STBY) == 0,
            ConfigurationB4 => !has(image, CONFIGURATION, GIVES_DIGITS),
            ConfigurationB6B7 => image[CONFIGURATION] >> 6 == 0,
            SetupB7 => image[SETUP] >> 7 == 0,
            Protocol => matches!(image[SETUP] >> 4 & 0x07, PROTOCOL_OFF | RC5 | NEC),
            GuardWithinValue => guard <= guard_load(image),
            NoGuardInStandby => !standby || guard == 0,
            WatchdogWithinLoad => word(image, WATCHDOG_LEFT) <= watchdog_load(image[WATCHDOG]),
            Fresh => image[REMOTE_FRESH] <= 1,
            RemoteAddress => image[REMOTE_ADDRESS] == 0,
            CommandOnlyFresh => image[REMOTE_FRESH] != 0 || image[REMOTE_COMMAND] == 0,
            DigitsAtLeastOne => image[DIGITS] >= 1,
            DigitsAtMostFive => image[DIGITS] <= 5,
            DisplayControl => image[DISPLAY_CONTROL] >> 5 == 0,
            Unused(at) => image[at] == 0,
        }
    }
}

/// The sixteenths that the guard value of byte 21 stands for.
pub fn guard_load(image: &Image) -> u16 {
    PER_SECOND * u16::from(image[SETUP] & 0x0F)
}

/// The clauses that the image breaks.
pub fn broken(image: &Image) -> Vec<Clause> {
    clauses().into_iter().filter(|clause| !clause.holds(image)).collect()
}

/// True if the image is valid, the clauses left out in `spared` not asked.
pub fn is_valid_but(image: &Image, spared: Option<Clause>) -> bool {
    (0..16).all(|at| Reserved(at).holds(image))
        && (0..CALENDAR.len()).all(|field| Nibbles(field).holds(image) && Range(field).holds(image))
        && SINGLE.iter().all(|&clause| Some(clause) == spared || clause.holds(image))
        && (UNUSED..IMAGE_LEN).all(|at| Unused(at).holds(image))
}

pub fn is_valid(image: &Image) -> bool {
    is_valid_but(image, None)
}
