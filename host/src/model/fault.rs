//! Plausible wrong readings that can be planted in the model, one at a time,
//! to show that the random comparison would notice each of them in the archive.

macro_rules! faults {
    ($($name:ident: $words:literal,)*) => {
        #[derive(Clone, Copy, Debug, PartialEq, Eq)]
        pub enum Fault { $($name,)* }

        impl Fault {
            /// Every fault, in the order of its number, counted from 1.
            pub const ALL: &'static [Fault] = &[$(Fault::$name,)*];

            /// What the faulty panel does.
            pub fn words(self) -> &'static str {
                match self { $(Fault::$name => $words,)* }
            }
        }
    };
}

faults! {
    // Tick, standby, guard and watchdog.
    WakesOnlyOnNewFlag: "an alarm wakes only when its flag newly rises",
    WatchdogBeginsStandby: "the watchdog's end begins standby",
    GuardSparedInWakingTick: "the guard does not fall in the tick that wakes",
    RtcReloadsGuard: "an RTC event with STBY low reloads the guard",
    GuardNeedsOscillator: "the guard stands still while the oscillator is stopped",
    WatchdogIgnoresOscillator: "the watchdog runs with the oscillator stopped",
    WatchdogNeedsNewFlag: "a watchdog end with its flag up is no event",
    WatchdogSeesOldStandby: "alarm and watchdog in one tick both count as standby sources",
    GuardFirst: "the guard falls before the alarm is judged",
    TickAsksAbe: "a tick's match asks for ABE as well",
    // Calendar and alarm.
    BinaryIncrement: "1 is added to the seconds byte as if it were no BCD",
    Year2100NotLeap: "year 00 is a leap year in century 0 only",
    CenturyStops: "century 3 stays at the end of its year 99",
    OldWeekdayCompared: "at midnight the alarm is compared with the old weekday",
    ImpossibleFieldCarries: "an alarm second of 1Ah is taken for 20",
    MonthRepeatsWithDate: "RPT4 frees the month and RPT5 the date",
    // Supply return.
    LastSecondOnly: "a cut's alarm is judged at its last second only",
    StartSecondCounts: "the start second of a cut is among the seconds reached",
    AbeNotAsked: "a match within a cut counts without ABE",
    BitOnlyForNewMatch: "b4 after a cut is set for a new match only",
    WeekdayMovesOnce: "a cut over several midnights moves the weekday once",
    WatchdogKept: "the watchdog's rest is kept over a cut",
    SixteenthsLost: "a cut zeroes the sixteenths",
    LimitTooLow: "a cut of exactly 31,622,400 seconds is refused",
    LimitTooHigh: "a cut of 31,622,401 seconds is accepted",
    // Keys, remote and pins.
    ColdKeysStored: "cold keys join the store in standby",
    KeysAsleepInStandby: "the accepted keys do not follow in standby",
    HeldKeyIsNew: "every accepted key counts as a new press",
    Rc5HighBitsIgnored: "RC-5 bits 14 to 31 are not looked at",
    AnyRemoteAddress: "a frame for device address 1 is a key too",
    RemoteNeedsB2: "a remote key with STBY low needs b2 for its interrupt bit",
    ReadyRisingWakes: "READY rising ends standby",
    WakeUpWithoutB5: "a WAKE_UP rise without b5 sets its bit with STBY low",
    PinRepeats: "a high WAKE_UP level told twice counts as a second rise",
    // Commands.
    ThreeAfterFour: "refusal 4 is checked before refusal 3",
    SixBeforeFive: "an address out of range is refused before a missing data byte",
    CheckedByteByByte: "a clock write is judged after each of its bytes",
    ReservedJudged: "reserved bits are judged before they are dropped",
    SixteenthsNotZeroed: "a clock write leaves the sixteenths",
    ReloadOnChangeOnly: "writing 09h reloads the watchdog only if its value changes",
    WriteWraps: "register data past 0Fh go on at 00h",
    InterruptExchanged: "63h replies the flags first",
    FlagsKept: "63h clears the interrupt byte only",
    NotFilled: "output beyond a reply is left untouched",
    DisplayOffAlways: "the digits byte turns the display off though they stay the same",
    BrightnessLost: "changed digits clear the brightness too",
    ReloadStartsGuard: "C2h starts a stopped guard",
    ConfigurationB4Kept: "byte 20 keeps b4 of the configuration",
    // Show and lines.
    TwelveShownAsZero: "12-hour form shows midnight and noon as 0",
    LeadingZeroShown: "12-hour form keeps the leading zero",
    FaceInStandbyOnly: "b3 shows the clock face in standby only",
    FewDigitsDark: "in standby with b3 and fewer than 4 digits nothing is shown",
    IrqUpperHalf: "IRQ counts the upper four interrupt bits only",
    // Validity.
    StandbyGuardAllowed: "an image may hold a running guard while STBY is high",
    WatchdogRestFree: "the watchdog's rest is not held against register 09h",
}

impl Fault {
    /// The fault's number, counted from 1.
    pub fn number(self) -> usize {
        self as usize + 1
    }
}
