//! The kinds of scene: mixed events, bursts of ticks, cuts about an alarm, damaged and random images.

use super::damage::broken_in;
use super::events::*;
use super::images::{aim_alarm, powered_up, random_valid};
use super::trial::Call;
use super::{Checked, Driver};
use crate::model::names::*;
use crate::model::valid::clauses;
use crate::panel::Panel;

impl<A: Panel, B: Panel> Driver<A, B> {
    /// One scene of a kind drawn by chance.
    pub(super) fn scene(&mut self) -> Checked<()> {
        match self.random.below(20) {
            0..=7 => self.mixed(),
            8..=11 => self.ticking(),
            12..=14 => self.cuts(),
            15 => self.series(),
            16 | 17 => self.commands(),
            18 => self.damaged(),
            _ => self.garbage(),
        }
    }

    fn start(&mut self) -> Image {
        if self.random.once_in(5) {
            powered_up()
        } else {
            random_valid(&mut self.random)
        }
    }

    /// Any calls one after the other; now and then a damaged copy of the image is offered.
    fn mixed(&mut self) -> Checked<()> {
        let mut image = self.start();
        for _ in 0..self.random.from_to(4, 60) {
            let call = random_call(&image, &mut self.random);
            if self.random.once_in(40) {
                self.offer_damaged(&image, &call)?;
            }
            self.call(&mut image, &call)?;
        }
        Ok(())
    }

    /// Bursts of ticks, long enough for guard and watchdog to end, with other events between.
    fn ticking(&mut self) -> Checked<()> {
        let mut image = self.start();
        for _ in 0..self.random.from_to(1, 4) {
            if self.random.once_in(2) {
                let ahead = self.random.below(4);
                aim_alarm(&mut image, &mut self.random, ahead);
            }
            let most = self.random.pick(&[1, 2, 17, 40, 300]);
            for _ in 0..self.random.from_to(1, most) {
                self.call(&mut image, &Call::Tick)?;
            }
            let call = random_call(&image, &mut self.random);
            self.call(&mut image, &call)?;
            self.call(&mut image, &Call::Lines(1))?;
        }
        Ok(())
    }

    /// Cuts whose length is about the distance to the alarm.
    fn cuts(&mut self) -> Checked<()> {
        let mut image = self.start();
        for _ in 0..self.random.from_to(1, 5) {
            let mut cut = random_cut(&mut self.random);
            if !self.random.once_in(4) && cut <= LONGEST_CUT {
                let ahead = if self.random.once_in(3) { self.random.below(cut + 1) } else { cut };
                aim_alarm(&mut image, &mut self.random, ahead);
                cut = (cut + 1).saturating_sub(self.random.below(3)).min(LONGEST_CUT);
            }
            self.call(&mut image, &Call::SupplyReturn(cut))?;
            self.call(&mut image, &Call::Lines(1))?;
        }
        Ok(())
    }

    /// Commands with any lengths, from an image that is kept awake most of the time.
    fn commands(&mut self) -> Checked<()> {
        let mut image = self.start();
        for _ in 0..self.random.from_to(4, 40) {
            if has(&image, PINS, STBY) && !self.random.once_in(4) {
                image = self.start();
            }
            let call = random_command(&image, &mut self.random);
            self.call(&mut image, &call)?;
            if self.random.once_in(6) {
                self.call(&mut image, &Call::Show(5))?;
            }
        }
        Ok(())
    }

    fn offer_damaged(&mut self, image: &Image, call: &Call) -> Checked<()> {
        let all = clauses();
        let clause = self.random.pick(&all);
        let damaged = broken_in(image, clause, &mut self.random);
        self.coverage.count_damage(clause);
        self.call_on(&damaged, call)?;
        Ok(())
    }

    /// Every clause of validity broken in turn, each offered to some call.
    fn damaged(&mut self) -> Checked<()> {
        let image = self.start();
        for clause in clauses() {
            let damaged = broken_in(&image, clause, &mut self.random);
            let call = random_call(&image, &mut self.random);
            self.coverage.count_damage(clause);
            self.call_on(&damaged, &call)?;
        }
        Ok(())
    }

    /// Random bytes, images with a few random bytes, and images of a wrong length.
    fn garbage(&mut self) -> Checked<()> {
        let image = self.start();
        for _ in 0..self.random.from_to(4, 40) {
            let call = random_call(&image, &mut self.random);
            let mut bytes = image.to_vec();
            match self.random.below(3) {
                0 => bytes.iter_mut().for_each(|byte| *byte = self.random.byte()),
                1 => {
                    for _ in 0..self.random.from_to(1, 3) {
                        bytes[self.random.below(64) as usize] = self.random.byte();
                    }
                }
                _ => {
                    let any = self.random.below(141) as usize;
                    let length = self.random.pick(&[0, 1, 32, 63, 65, 128, any]);
                    bytes.resize(length, 0);
                }
            }
            self.call_on(&bytes, &call)?;
        }
        Ok(())
    }
}
