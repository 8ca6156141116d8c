//! Counters of what the random calls have reached; a run that misses one of them proves nothing.

use super::observe;
use super::trial::Call;
use crate::model::names::Image;
use crate::model::valid::{clauses, Clause};

macro_rules! marks {
    ($($name:ident: $words:literal,)*) => {
        /// Something that must come up in a run.
        #[derive(Clone, Copy, Debug, PartialEq, Eq)]
        pub enum Mark { $($name,)* }

        impl Mark {
            pub const ALL: &'static [Mark] = &[$(Mark::$name,)*];

            pub fn words(self) -> &'static str {
                match self { $(Mark::$name => $words,)* }
            }
        }
    };
}

marks! {
    Configure: "accepted: 00 group",
    ConfigureSameDigits: "accepted: 00 group, digits as before",
    ConfigureNewDigits: "accepted: 00 group, digits changed",
    WriteDigits: "accepted: 40h",
    WriteRegisters: "accepted: 50h",
    ReadKeys: "accepted: 61h",
    ReadRemote: "accepted: 62h",
    ReadInterrupts: "accepted: 63h",
    ReadRegisters: "accepted: 70h",
    SetDisplay: "accepted: 100xxxxx",
    SetHotKeys: "accepted: A0h",
    StandbyCommand: "accepted: C1h",
    ReloadGuard: "accepted: C2h, guard running",
    ReloadStoppedGuard: "accepted: C2h, guard stopped",
    BeginsByReady: "standby begins: READY falling",
    BeginsByCommand: "standby begins: C1h",
    BeginsByGuard: "standby begins: guard",
    EndsByMaskedKey: "standby ends: key of the mask",
    EndsByAnyKey: "standby ends: key with b1",
    EndsByRemote: "standby ends: remote key",
    EndsByWakeUp: "standby ends: WAKE_UP",
    EndsByAlarm: "standby ends: alarm",
    EndsByAlarmFlagUp: "standby ends: alarm, flag up before",
    EndsByWatchdog: "standby ends: watchdog",
    EndsByBoth: "standby ends: alarm, watchdog in the same tick",
    EndsByPowerUp: "standby ends: power-up",
    EndsByReturn: "standby ends: supply return",
    MatchAwake: "tick: match, STBY low",
    MatchWithoutAfe: "tick: match without AFE",
    MatchAndGuardEnd: "tick: match and guard's end",
    WatchdogEnd: "tick: watchdog ends, WDFEn set",
    WatchdogSilent: "tick: watchdog ends, WDFEn clear",
    GuardSilent: "tick: guard ends without b0",
    GuardStopped: "tick: guard runs, oscillator stopped",
    Midnight: "tick: midnight",
    LeapDay: "tick: 28 to 29 February",
    NoLeapDay: "tick: 28 February to 1 March",
    YearEnd: "tick: year end",
    CenturyEnd: "tick: century end",
    CycleEnd: "tick: cycle end",
    CutZero: "return: n = 0",
    CutLongest: "return: n = 31,622,400",
    CutStopped: "return: oscillator stopped",
    CutMatchFirst: "return: match at the first second",
    CutMatchLast: "return: match at the last second only",
    CutMatchInside: "return: match inside only",
    CutNoMatch: "return: no match with AFE and ABE",
    CutMatchNotAsked: "return: match without AFE and ABE both",
    CutFlagKept: "return: alarm flag kept",
    CutMidnights: "return: several midnights",
    CutCycle: "return: cycle end",
    KeyAwake: "keys: new press, STBY low",
    KeyCold: "keys: cold press in standby",
    KeyHeld: "keys: accepted again, nothing new",
    RemoteAwake: "remote: key, STBY low",
    RemoteAsleep: "remote: key in standby without b2",
    RemoteNec: "remote: NEC key",
    RemoteRc5: "remote: RC-5 key",
    ReadyStopsGuard: "READY rising stops the guard",
    ReadyInStandby: "READY rising in standby",
    WakeUpAwake: "WAKE_UP rising with b5, STBY low",
    WakeUpIgnored: "WAKE_UP rising without b5",
    ShowDark: "show: dark",
    ShowDigits: "show: digit bytes",
    ShowFewInStandby: "show: digit bytes in standby",
    ShowDate: "show: month and date",
    ShowSeconds: "show: minutes and seconds",
    ShowTime: "show: hours and minutes, 24 hours",
    ShowTwelve: "show: hours and minutes, 12 hours",
    LinesIrq: "lines: IRQ asserted",
    LinesQuiet: "lines: interrupt byte set, no IRQ",
    SeriesWithin: "series: sum within the limit",
    SeriesBeyond: "series: sum beyond the limit",
    SeriesNone: "series: no return accepted",
}

/// The numbers that each call must have returned, in the order of `Call::NAMES`.
const NUMBERS: [&[u32]; 10] = [
    &[0, 1],
    &[0, 1],
    &[0, 1, 2, 3, 4, 5, 6, 7, 8, 9],
    &[0, 1],
    &[0, 1, 11],
    &[0, 1],
    &[0, 1],
    &[0, 1, 10],
    &[0, 1, 12],
    &[0, 1, 12],
];

pub struct Coverage {
    numbers: [[u64; 13]; 10],
    marks: Vec<u64>,
    clauses: Vec<Clause>,
    damaged: Vec<u64>,
    pub calls: u64,
}

impl Default for Coverage {
    fn default() -> Coverage {
        Coverage {
            numbers: [[0; 13]; 10],
            marks: vec![0; Mark::ALL.len()],
            damaged: vec![0; clauses().len()],
            clauses: clauses(),
            calls: 0,
        }
    }
}

impl Coverage {
    pub fn mark(&mut self, mark: Mark) {
        self.marks[mark as usize] += 1;
    }

    /// Counts a call by its number, and an accepted one by what it did.
    pub fn count(&mut self, before: &[u8], call: &Call, number: u32, after: &[u8]) {
        self.calls += 1;
        self.numbers[call.place()][number.min(12) as usize] += 1;
        if number == 0 {
            let before: Option<&Image> = before.try_into().ok();
            let after: Option<&Image> = after.try_into().ok();
            if let (Some(before), Some(after)) = (before, after) {
                observe::accepted(self, before, call, after);
            }
        }
    }

    /// Counts a call on an image with one clause broken.
    pub fn count_damage(&mut self, clause: Clause) {
        let place = self.clauses.iter().position(|&other| other == clause).expect("a listed clause");
        self.damaged[place] += 1;
    }

    /// Prints every counter and returns the names of those that are 0 and must not be.
    pub fn report(&self) -> Vec<String> {
        let mut missing = Vec::new();
        println!("refusal numbers");
        for (place, name) in Call::NAMES.iter().enumerate() {
            let counts: Vec<String> = (0..13)
                .filter(|&number| self.numbers[place][number] != 0)
                .map(|number| format!("{number}: {}", self.numbers[place][number]))
                .collect();
            println!("  {name:14} {}", counts.join(", "));
            for &number in NUMBERS[place] {
                if self.numbers[place][number as usize] == 0 {
                    missing.push(format!("{name} returning {number}"));
                }
            }
        }
        println!("reached");
        for &mark in Mark::ALL {
            println!("  {:46} {}", mark.words(), self.marks[mark as usize]);
            if self.marks[mark as usize] == 0 {
                missing.push(mark.words().to_string());
            }
        }
        let least = self.damaged.iter().min().expect("there are clauses");
        println!("clauses of validity broken alone: {}, each at least {least} times", self.clauses.len());
        for (clause, &count) in self.clauses.iter().zip(&self.damaged) {
            if count == 0 {
                missing.push(format!("clause {clause:?} broken"));
            }
        }
        missing
    }
}
