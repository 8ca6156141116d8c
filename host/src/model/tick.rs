//! A tick: the clock with its alarm, then the watchdog, then the guard.

use super::alarm::matches_now;
use super::calendar::{from_bcd, to_bcd, Moment};
use super::fault::Fault;
use super::names::*;
use super::standby::{begin_standby, end_standby, in_standby, report, Source};
use super::valid::guard_load;
use super::Model;

impl Model {
    /// An RTC event of a tick that began with STBY as `slept` says.
    fn rtc_event(&self, image: &mut Image, slept: bool) {
        if self.has(Fault::RtcReloadsGuard) && !in_standby(image) {
            set_word(image, GUARD_LEFT, guard_load(image));
        }
        if self.has(Fault::WatchdogSeesOldStandby) && slept {
            image[INTERRUPT] |= Source::Rtc as u8 >> 4;
            return end_standby(image);
        }
        report(image, Source::Rtc);
    }

    /// The registers as the alarm's comparison sees them; only a planted fault changes them.
    pub(super) fn alarm_view(&self, image: &Image) -> [u8; 16] {
        let mut view: [u8; 16] = image[..16].try_into().expect("sixteen registers");
        if self.has(Fault::ImpossibleFieldCarries) && from_bcd(view[ALARM_SECOND] & 0x7F) < 80 {
            view[ALARM_SECOND] = view[ALARM_SECOND] & RPT1 | to_bcd(from_bcd(view[ALARM_SECOND] & 0x7F));
        }
        if self.has(Fault::MonthRepeatsWithDate) {
            let date = view[ALARM_DATE];
            view[ALARM_DATE] = (date & RPT4) >> 1 | (date & RPT5) << 1 | date & 0x3F;
        }
        view
    }

    /// A second passes.
    fn pass_second(&self, image: &mut Image, slept: bool) {
        let before = Moment::of_registers(&image[..]);
        let seconds = image[SECONDS];
        let mut after = before.later(1);
        let date = after.date();
        if self.has(Fault::Year2100NotLeap) && date.century != 0 && date.year == 0 {
            after.day += u32::from(date.month == 2 && date.date == 29);
        }
        after.write(&mut image[..]);
        if self.has(Fault::BinaryIncrement) && before.second % 60 != 59 {
            image[SECONDS] = seconds + 1;
        }
        if self.has(Fault::CenturyStops) && after.count() == 0 {
            image[MONTH] |= 0xC0;
        }
        let mut view = self.alarm_view(image);
        if self.has(Fault::OldWeekdayCompared) {
            view[WEEKDAY] = before.weekday as u8;
        }
        let asked = if self.has(Fault::TickAsksAbe) { AFE | ABE } else { AFE };
        if image[ALARM_MONTH] & asked == asked && matches_now(&view) {
            let was_up = has(image, FLAGS, ALARM_FLAG);
            image[FLAGS] |= ALARM_FLAG;
            if !(self.has(Fault::WakesOnlyOnNewFlag) && was_up) {
                self.rtc_event(image, slept);
            }
        }
    }

    fn step_watchdog(&self, image: &mut Image, slept: bool) {
        let left = word(image, WATCHDOG_LEFT);
        if left == 0 {
            return;
        }
        set_word(image, WATCHDOG_LEFT, left - 1);
        if left == 1 && has(image, ALARM_WEEKDAY, WDFEN) {
            let was_up = has(image, FLAGS, WATCHDOG_FLAG);
            image[FLAGS] |= WATCHDOG_FLAG;
            if self.has(Fault::WatchdogBeginsStandby) && !in_standby(image) {
                begin_standby(image);
            } else if !(self.has(Fault::WatchdogNeedsNewFlag) && was_up) {
                self.rtc_event(image, slept);
            }
        }
    }

    fn step_guard(&self, image: &mut Image) {
        let left = word(image, GUARD_LEFT);
        if left == 0 {
            return;
        }
        set_word(image, GUARD_LEFT, left - 1);
        if left == 1 && has(image, CONFIGURATION, GUARD_STANDBY) {
            begin_standby(image);
        }
    }

    /// A sixteenth of a second: clock, then watchdog, then guard.
    pub(super) fn do_tick(&self, image: &mut Image) {
        let slept = in_standby(image);
        let runs = !has(image, SECONDS, OSC_ST);
        if self.has(Fault::GuardFirst) {
            self.step_guard(image);
        }
        if runs {
            image[SIXTEENTHS] += 1;
            if u16::from(image[SIXTEENTHS]) == PER_SECOND {
                image[SIXTEENTHS] = 0;
                self.pass_second(image, slept);
            }
        }
        if runs || self.has(Fault::WatchdogIgnoresOscillator) {
            self.step_watchdog(image, slept);
        }
        let spared = self.has(Fault::GuardFirst)
            || self.has(Fault::GuardSparedInWakingTick) && slept && !in_standby(image)
            || self.has(Fault::GuardNeedsOscillator) && !runs;
        if !spared {
            self.step_guard(image);
        }
    }
}
