//! Sweeps that leave nothing to chance: every first byte with every short, right and surplus
//! length and every output length, and every value of the bytes that decide a refusal.

use super::images::random_valid;
use super::trial::{Bytes, Call};
use super::{Checked, Driver};
use crate::model::names::*;
use crate::panel::Panel;

impl<A: Panel, B: Panel> Driver<A, B> {
    /// All sweeps, some 370,000 calls.
    pub fn sweep(&mut self) -> Checked<()> {
        self.sweep_lengths()?;
        self.sweep_configurations()?;
        self.sweep_addresses()?;
        self.sweep_image_lengths()
    }

    /// A valid image with STBY as asked.
    fn image_with(&mut self, standby: bool) -> Image {
        loop {
            let image = random_valid(&mut self.random);
            if has(&image, PINS, STBY) == standby {
                return image;
            }
        }
    }

    fn sweep_lengths(&mut self) -> Checked<()> {
        for first in 0..=255 {
            for length in 0..=20 {
                for output in 0..=40 {
                    let image = self.image_with(output % 10 == 9);
                    let mut bytes = [0; 20];
                    bytes.iter_mut().for_each(|byte| *byte = self.random.byte() & 0x1F);
                    bytes[0] = first;
                    self.call_on(&image, &Call::Command(Bytes::new(&bytes[..length]), output))?;
                }
            }
        }
        Ok(())
    }

    fn sweep_configurations(&mut self) -> Checked<()> {
        for first in 0..0x40 {
            for setup in 0..=255 {
                for digits in 0..=7 {
                    let image = self.image_with(false);
                    self.call_on(&image, &Call::Command(Bytes::new(&[first, setup, digits]), 0))?;
                }
            }
        }
        Ok(())
    }

    fn sweep_addresses(&mut self) -> Checked<()> {
        for first in [0x40, 0x50, 0x70] {
            for address in 0..=255 {
                for length in 0..=20 {
                    let image = self.image_with(false);
                    let mut bytes = vec![first, address];
                    bytes.extend((0..length).map(|_| self.random.byte() & 0x17));
                    self.call_on(&image, &Call::Command(Bytes::new(&bytes), length))?;
                }
            }
        }
        Ok(())
    }

    /// Every image length about the right one, offered to each call.
    fn sweep_image_lengths(&mut self) -> Checked<()> {
        for length in 0..=140 {
            let mut image = random_valid(&mut self.random).to_vec();
            image.resize(length, 0);
            for call in [
                Call::PowerUp,
                Call::Tick,
                Call::Command(Bytes::new(&[0x61]), 2),
                Call::Command(Bytes::new(&[]), 0),
                Call::KeySample(1),
                Call::RemoteFrame(0x300C),
                Call::Ready(1),
                Call::WakeUp(1),
                Call::SupplyReturn(1),
                Call::SupplyReturn(LONGEST_CUT + 1),
                Call::Show(5),
                Call::Show(4),
                Call::Lines(1),
                Call::Lines(0),
            ] {
                self.call_on(&image, &call)?;
            }
        }
        Ok(())
    }
}
