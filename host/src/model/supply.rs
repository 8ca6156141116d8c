//! Power-up, and the supply's return after a cut.

use super::alarm::{matches_now, Alarm};
use super::calendar::Moment;
use super::fault::Fault;
use super::names::*;
use super::registers::watchdog_load;
use super::standby::Source;
use super::Model;

impl Model {
    /// The image that power-up writes.
    pub(super) fn do_power_up(&self, image: &mut Image) {
        *image = [0; IMAGE_LEN];
        image[WEEKDAY] = 0x07;
        image[DATE] = 0x01;
        image[MONTH] = 0x01;
        image[CONFIGURATION] = 0x01;
        image[SETUP] = 0x0A;
        set_word(image, GUARD_LEFT, 160);
        image[DIGITS] = 5;
    }

    /// The supply returns after a cut of n seconds.
    pub(super) fn do_supply_return(&self, image: &mut Image, n: u32) {
        let before = *image;
        self.do_power_up(image);
        image[..=FLAGS].copy_from_slice(&before[..=FLAGS]);
        if self.has(Fault::WatchdogKept) {
            let left = word(&before, WATCHDOG_LEFT).min(watchdog_load(image[WATCHDOG]));
            set_word(image, WATCHDOG_LEFT, left);
        }
        if self.has(Fault::SixteenthsLost) {
            image[SIXTEENTHS] = 0;
        }
        if !has(image, SECONDS, OSC_ST) {
            let start = Moment::of_registers(&image[..]);
            let alarm = Alarm::of_registers(&self.alarm_view(image));
            let mut end = start.later(n);
            if self.has(Fault::WeekdayMovesOnce) && end.day != start.day {
                end.weekday = start.weekday % 7 + 1;
            }
            end.write(&mut image[..]);
            let matched = if self.has(Fault::LastSecondOnly) {
                n > 0 && matches_now(&self.alarm_view(image))
            } else if self.has(Fault::StartSecondCounts) {
                matches_now(&self.alarm_view(&before)) || alarm.matches_within(start, n)
            } else {
                alarm.matches_within(start, n)
            };
            let asked = if self.has(Fault::AbeNotAsked) { AFE } else { AFE | ABE };
            if image[ALARM_MONTH] & asked == asked && matched {
                image[FLAGS] |= ALARM_FLAG;
            }
        }
        let told =
            if self.has(Fault::BitOnlyForNewMatch) { before[FLAGS] ^ image[FLAGS] } else { image[FLAGS] };
        if told & ALARM_FLAG != 0 {
            image[INTERRUPT] = Source::Rtc as u8;
        }
    }
}
