//! The panel as document 01 defines it, over the 64-byte image, in plain Rust.
//!
//! Written from the paper alone, to be compared with the proved archive.

pub mod alarm;
pub mod calendar;
pub mod command;
mod display;
pub mod fault;
mod inputs;
pub mod names;
pub mod registers;
mod remote;
pub mod standby;
mod supply;
mod tick;
pub mod valid;

use fault::Fault;
use names::{refusal, Image, LONGEST_CUT};
use valid::{is_valid_but, Clause};

/// The panel's ten calls; a planted fault makes one of its rules wrong on purpose.
#[derive(Clone, Copy, Debug, Default)]
pub struct Model {
    fault: Option<Fault>,
}

impl Model {
    pub fn correct() -> Model {
        Model { fault: None }
    }

    pub fn with(fault: Fault) -> Model {
        Model { fault: Some(fault) }
    }

    pub(crate) fn has(&self, fault: Fault) -> bool {
        self.fault == Some(fault)
    }

    /// True if an image of 64 bytes is valid.
    fn takes(&self, image: &Image) -> bool {
        let spared = match self.fault {
            Some(Fault::StandbyGuardAllowed) => Some(Clause::NoGuardInStandby),
            Some(Fault::WatchdogRestFree) => Some(Clause::WatchdogWithinLoad),
            _ => None,
        };
        is_valid_but(image, spared)
    }

    /// The bytes as an image, if they are 64 and valid.
    fn sound<'a>(&self, bytes: &'a mut [u8]) -> Option<&'a mut Image> {
        let image: &mut Image = bytes.try_into().ok()?;
        self.takes(image).then_some(image)
    }

    fn sound_to_read<'a>(&self, bytes: &'a [u8]) -> Option<&'a Image> {
        let image: &Image = bytes.try_into().ok()?;
        self.takes(image).then_some(image)
    }

    pub fn power_up(&self, image: &mut [u8]) -> u32 {
        let Ok(image) = image.try_into() else {
            return refusal::BAD_IMAGE;
        };
        self.do_power_up(image);
        refusal::ACCEPTED
    }

    pub fn tick(&self, image: &mut [u8]) -> u32 {
        let Some(image) = self.sound(image) else {
            return refusal::BAD_IMAGE;
        };
        self.do_tick(image);
        refusal::ACCEPTED
    }

    pub fn command(&self, image: &mut [u8], bytes: &[u8], out: &mut [u8]) -> u32 {
        let Some(image) = self.sound(image) else {
            return refusal::BAD_IMAGE;
        };
        let number = self.command_refusal(image, bytes, out.len());
        if number == refusal::ACCEPTED {
            self.do_command(image, bytes, out);
        }
        number
    }

    pub fn key_sample(&self, image: &mut [u8], sample: u16) -> u32 {
        let Some(image) = self.sound(image) else {
            return refusal::BAD_IMAGE;
        };
        self.do_key_sample(image, sample);
        refusal::ACCEPTED
    }

    pub fn remote_frame(&self, image: &mut [u8], frame: u32) -> u32 {
        let Some(image) = self.sound(image) else {
            return refusal::BAD_IMAGE;
        };
        if self.do_remote_frame(image, frame) {
            refusal::ACCEPTED
        } else {
            refusal::NO_KEY
        }
    }

    pub fn ready(&self, image: &mut [u8], level: u32) -> u32 {
        let Some(image) = self.sound(image) else {
            return refusal::BAD_IMAGE;
        };
        self.do_ready(image, level != 0);
        refusal::ACCEPTED
    }

    pub fn wake_up(&self, image: &mut [u8], level: u32) -> u32 {
        let Some(image) = self.sound(image) else {
            return refusal::BAD_IMAGE;
        };
        self.do_wake_up(image, level != 0);
        refusal::ACCEPTED
    }

    pub fn supply_return(&self, image: &mut [u8], seconds: u32) -> u32 {
        let Some(image) = self.sound(image) else {
            return refusal::BAD_IMAGE;
        };
        let limit = match self.fault {
            Some(Fault::LimitTooLow) => LONGEST_CUT - 1,
            Some(Fault::LimitTooHigh) => LONGEST_CUT + 1,
            _ => LONGEST_CUT,
        };
        if seconds > limit {
            return refusal::CUT_TOO_LONG;
        }
        self.do_supply_return(image, seconds);
        refusal::ACCEPTED
    }

    pub fn show(&self, image: &[u8], digits: &mut [u8]) -> u32 {
        let Some(image) = self.sound_to_read(image) else {
            return refusal::BAD_IMAGE;
        };
        if digits.len() != 5 {
            return refusal::BAD_BUFFER;
        }
        digits.copy_from_slice(&self.shown(image));
        refusal::ACCEPTED
    }

    pub fn lines(&self, image: &[u8], lines: &mut [u8]) -> u32 {
        let Some(image) = self.sound_to_read(image) else {
            return refusal::BAD_IMAGE;
        };
        if lines.len() != 1 {
            return refusal::BAD_BUFFER;
        }
        lines[0] = self.lines_of(image);
        refusal::ACCEPTED
    }
}
