//! What an accepted call did, read off the images before and after it.

use super::coverage::{Coverage, Mark};
use super::trial::Call;
use crate::model::alarm::{matches_now, Alarm};
use crate::model::calendar::{Moment, SECONDS_PER_CYCLE, SECONDS_PER_DAY};
use crate::model::command::Command;
use crate::model::names::*;
use crate::model::standby::in_standby;

/// Counts the marks of an accepted call.
pub fn accepted(coverage: &mut Coverage, before: &Image, call: &Call, after: &Image) {
    match *call {
        Call::PowerUp => {
            if in_standby(before) {
                coverage.mark(Mark::EndsByPowerUp);
            }
        }
        Call::Tick => tick(coverage, before, after),
        Call::Command(bytes, _) => command(coverage, before, bytes.as_slice()),
        Call::KeySample(_) => key_sample(coverage, before, after),
        Call::RemoteFrame(_) => remote_frame(coverage, before, after),
        Call::Ready(_) => ready(coverage, before, after),
        Call::WakeUp(_) => wake_up(coverage, before, after),
        Call::SupplyReturn(seconds) => supply_return(coverage, before, seconds),
        Call::Show(_) => show(coverage, before),
        Call::Lines(_) => {
            if image_irq(before) {
                coverage.mark(Mark::LinesIrq);
            } else if before[INTERRUPT] != 0 {
                coverage.mark(Mark::LinesQuiet);
            }
        }
    }
}

fn image_irq(image: &Image) -> bool {
    !in_standby(image) && has(image, PINS, READY) && image[INTERRUPT] != 0
}

fn ended(before: &Image, after: &Image) -> bool {
    in_standby(before) && !in_standby(after)
}

fn began(before: &Image, after: &Image) -> bool {
    !in_standby(before) && in_standby(after)
}

fn tick(coverage: &mut Coverage, before: &Image, after: &Image) {
    let runs = !has(before, SECONDS, OSC_ST);
    let second = runs && before[SIXTEENTHS] == 15;
    let fits = second && matches_now(&after[..]);
    let matched = fits && has(before, ALARM_MONTH, AFE);
    let watchdog = runs && word(before, WATCHDOG_LEFT) == 1;
    let watchdog_event = watchdog && has(before, ALARM_WEEKDAY, WDFEN);
    let guard_end = word(before, GUARD_LEFT) == 1;
    let mut mark = |holds: bool, mark: Mark| {
        if holds {
            coverage.mark(mark)
        }
    };
    // A waking tick loads no guard or at least 16, so it never begins standby again.
    let wakes = ended(before, after);
    mark(wakes && matched, Mark::EndsByAlarm);
    mark(wakes && matched && has(before, FLAGS, ALARM_FLAG), Mark::EndsByAlarmFlagUp);
    mark(wakes && watchdog_event && !matched, Mark::EndsByWatchdog);
    mark(wakes && watchdog_event && matched, Mark::EndsByBoth);
    mark(began(before, after), Mark::BeginsByGuard);
    mark(matched && !in_standby(before), Mark::MatchAwake);
    mark(fits && !matched, Mark::MatchWithoutAfe);
    mark(matched && guard_end, Mark::MatchAndGuardEnd);
    mark(watchdog_event, Mark::WatchdogEnd);
    mark(watchdog && !watchdog_event, Mark::WatchdogSilent);
    mark(guard_end && !in_standby(after), Mark::GuardSilent);
    mark(!runs && word(before, GUARD_LEFT) != 0, Mark::GuardStopped);
    if second && before[WEEKDAY] != after[WEEKDAY] {
        midnight(coverage, before, after);
    }
}

/// Counts a tick's midnight, and what ends with its day.
fn midnight(coverage: &mut Coverage, before: &Image, after: &Image) {
    coverage.mark(Mark::Midnight);
    let ending = Moment::of_registers(&before[..]).date();
    if (ending.month, ending.date) == (2, 28) {
        let leap = after[DATE] == 0x29;
        coverage.mark(if leap { Mark::LeapDay } else { Mark::NoLeapDay });
    }
    if (ending.month, ending.date) == (12, 31) {
        coverage.mark(Mark::YearEnd);
        if ending.year == 99 {
            coverage.mark(Mark::CenturyEnd);
            if ending.century == 3 {
                coverage.mark(Mark::CycleEnd);
            }
        }
    }
}

fn command(coverage: &mut Coverage, before: &Image, bytes: &[u8]) {
    let Some(command) = Command::of_byte(bytes[0]) else {
        return;
    };
    coverage.mark(match command {
        Command::Configure => match bytes[0] & GIVES_DIGITS {
            0 => Mark::Configure,
            _ if bytes[2] == before[DIGITS] => Mark::ConfigureSameDigits,
            _ => Mark::ConfigureNewDigits,
        },
        Command::WriteDigits => Mark::WriteDigits,
        Command::WriteRegisters => Mark::WriteRegisters,
        Command::ReadKeys => Mark::ReadKeys,
        Command::ReadRemote => Mark::ReadRemote,
        Command::ReadInterrupts => Mark::ReadInterrupts,
        Command::ReadRegisters => Mark::ReadRegisters,
        Command::SetDisplay => Mark::SetDisplay,
        Command::SetHotKeys => Mark::SetHotKeys,
        Command::Standby => Mark::StandbyCommand,
        Command::ReloadGuard if word(before, GUARD_LEFT) == 0 => Mark::ReloadStoppedGuard,
        Command::ReloadGuard => Mark::ReloadGuard,
    });
    if command == Command::Standby {
        coverage.mark(Mark::BeginsByCommand);
    }
}

fn key_sample(coverage: &mut Coverage, before: &Image, after: &Image) {
    let sample = word(after, LAST_SAMPLE);
    if sample != word(before, LAST_SAMPLE) {
        return;
    }
    let pressed = sample & !word(before, ACCEPTED_KEYS);
    if pressed == 0 {
        coverage.mark(Mark::KeyHeld);
    } else if !in_standby(before) {
        coverage.mark(Mark::KeyAwake);
    } else if !ended(before, after) {
        coverage.mark(Mark::KeyCold);
    } else if has(before, CONFIGURATION, ALL_HOT) {
        coverage.mark(Mark::EndsByAnyKey);
    } else {
        coverage.mark(Mark::EndsByMaskedKey);
    }
}

fn remote_frame(coverage: &mut Coverage, before: &Image, after: &Image) {
    let nec = before[SETUP] >> 4 == NEC;
    coverage.mark(if nec { Mark::RemoteNec } else { Mark::RemoteRc5 });
    coverage.mark(match (in_standby(before), in_standby(after)) {
        (false, _) => Mark::RemoteAwake,
        (true, true) => Mark::RemoteAsleep,
        (true, false) => Mark::EndsByRemote,
    });
}

fn ready(coverage: &mut Coverage, before: &Image, after: &Image) {
    let rose = !has(before, PINS, READY) && has(after, PINS, READY);
    if began(before, after) {
        coverage.mark(Mark::BeginsByReady);
    }
    if rose && in_standby(before) {
        coverage.mark(Mark::ReadyInStandby);
    }
    if rose && word(before, GUARD_LEFT) != 0 {
        coverage.mark(Mark::ReadyStopsGuard);
    }
}

fn wake_up(coverage: &mut Coverage, before: &Image, after: &Image) {
    if has(before, PINS, WAKE_UP) || !has(after, PINS, WAKE_UP) {
        return;
    }
    coverage.mark(if !has(before, CONFIGURATION, WAKE_UP_COUNTS) {
        Mark::WakeUpIgnored
    } else if in_standby(before) {
        Mark::EndsByWakeUp
    } else {
        Mark::WakeUpAwake
    });
}

fn supply_return(coverage: &mut Coverage, before: &Image, n: u32) {
    if in_standby(before) {
        coverage.mark(Mark::EndsByReturn);
    }
    if has(before, FLAGS, ALARM_FLAG) {
        coverage.mark(Mark::CutFlagKept);
    }
    if n == LONGEST_CUT {
        coverage.mark(Mark::CutLongest);
    }
    if has(before, SECONDS, OSC_ST) {
        return coverage.mark(Mark::CutStopped);
    }
    if n == 0 {
        return coverage.mark(Mark::CutZero);
    }
    let start = Moment::of_registers(&before[..]);
    if start.second + n >= 2 * SECONDS_PER_DAY {
        coverage.mark(Mark::CutMidnights);
    }
    if start.count() + u64::from(n) >= SECONDS_PER_CYCLE {
        coverage.mark(Mark::CutCycle);
    }
    cut_alarm(coverage, before, n);
}

/// Counts where in a cut of n seconds, at least one, the alarm matches.
fn cut_alarm(coverage: &mut Coverage, before: &Image, n: u32) {
    let start = Moment::of_registers(&before[..]);
    let alarm = Alarm::of_registers(&before[..]);
    let within = |count: u32| alarm.matches_within(start, count);
    coverage.mark(if before[ALARM_MONTH] & (AFE | ABE) != AFE | ABE {
        if !within(n) {
            return;
        }
        Mark::CutMatchNotAsked
    } else if !within(n) {
        Mark::CutNoMatch
    } else if within(1) {
        Mark::CutMatchFirst
    } else if !within(n - 1) {
        Mark::CutMatchLast
    } else {
        Mark::CutMatchInside
    });
}

fn show(coverage: &mut Coverage, image: &Image) {
    let face = has(image, CONFIGURATION, CLOCK_FACE);
    coverage.mark(if !has(image, DISPLAY_CONTROL, DISPLAY_ON) || in_standby(image) && !face {
        Mark::ShowDark
    } else if face && image[DIGITS] >= 4 {
        if has(image, HOURS, MD_H) {
            Mark::ShowDate
        } else if has(image, HOURS, M_MS) {
            Mark::ShowSeconds
        } else if has(image, CALIBRATION, TWELVE_HOURS) {
            Mark::ShowTwelve
        } else {
            Mark::ShowTime
        }
    } else if in_standby(image) {
        Mark::ShowFewInStandby
    } else {
        Mark::ShowDigits
    });
}
