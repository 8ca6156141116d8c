//! What comes in from the panel's front and the board: key samples, remote frames, pin levels.

use super::fault::Fault;
use super::names::*;
use super::remote::key_of;
use super::standby::{begin_standby, end_standby, in_standby, report, Source};
use super::Model;

impl Model {
    pub(super) fn do_key_sample(&self, image: &mut Image, sample: u16) {
        let accepted = sample == word(image, LAST_SAMPLE);
        set_word(image, LAST_SAMPLE, sample);
        if !accepted || self.has(Fault::KeysAsleepInStandby) && in_standby(image) {
            return;
        }
        let held = word(image, ACCEPTED_KEYS);
        let pressed = if self.has(Fault::HeldKeyIsNew) { sample } else { sample & !held };
        set_word(image, ACCEPTED_KEYS, sample);
        let all_hot = !in_standby(image) || has(image, CONFIGURATION, ALL_HOT);
        let counted = if all_hot { pressed } else { pressed & word(image, HOT_KEYS) };
        let joining = if self.has(Fault::ColdKeysStored) { pressed } else { counted };
        let store = word(image, KEY_STORE) | joining;
        set_word(image, KEY_STORE, store);
        if counted != 0 {
            report(image, Source::Key);
        }
    }

    /// Takes the frame if it is a key of the set protocol, and says whether it was.
    pub(super) fn do_remote_frame(&self, image: &mut Image, frame: u32) -> bool {
        let Some(command) = key_of(self, image[SETUP] >> 4 & 0x07, frame) else {
            return false;
        };
        image[REMOTE_FRESH] = 1;
        image[REMOTE_ADDRESS] = 0;
        image[REMOTE_COMMAND] = command;
        let asks_b2 = in_standby(image) || self.has(Fault::RemoteNeedsB2);
        if !asks_b2 || has(image, CONFIGURATION, REMOTE_WAKES) {
            report(image, Source::Remote);
        }
        true
    }

    pub(super) fn do_ready(&self, image: &mut Image, high: bool) {
        let was_high = has(image, PINS, READY);
        image[PINS] = image[PINS] & !READY | if high { READY } else { 0 };
        if high && !was_high {
            set_word(image, GUARD_LEFT, 0);
            if self.has(Fault::ReadyRisingWakes) {
                end_standby(image);
            }
        }
        if !high && was_high {
            begin_standby(image);
        }
    }

    pub(super) fn do_wake_up(&self, image: &mut Image, high: bool) {
        let was_high = has(image, PINS, WAKE_UP) && !self.has(Fault::PinRepeats);
        image[PINS] = image[PINS] & !WAKE_UP | if high { WAKE_UP } else { 0 };
        let counts = has(image, CONFIGURATION, WAKE_UP_COUNTS)
            || self.has(Fault::WakeUpWithoutB5) && !in_standby(image);
        if high && !was_high && counts {
            report(image, Source::WakeUp);
        }
    }
}
