//! The random comparison of two panels: scenes of calls, each starting from an image of its own.

pub mod coverage;
pub mod damage;
pub mod events;
pub mod images;
mod observe;
pub mod random;
mod scenes;
mod series;
mod sweep;
pub mod trial;

use std::fmt;

use coverage::Coverage;
use random::Random;
use trial::{Bench, Call, Difference};

use crate::model::names::{Image, IMAGE_LEN};
use crate::panel::Panel;

/// Two panels under comparison, the random source and the counters.
pub struct Driver<A, B> {
    bench: Bench<A, B>,
    random: Random,
    pub coverage: Coverage,
}

/// Why a run ends early.
pub enum Finding {
    /// The panels differ on a call, or the first breaks a law with it.
    Call(Box<Difference>),
    /// A series of supply returns is not what the plain clock says.
    Series(String),
}

impl From<Box<Difference>> for Finding {
    fn from(difference: Box<Difference>) -> Finding {
        Finding::Call(difference)
    }
}

impl fmt::Display for Finding {
    fn fmt(&self, to: &mut fmt::Formatter) -> fmt::Result {
        match self {
            Finding::Call(difference) => difference.fmt(to),
            Finding::Series(words) => writeln!(to, "{words}"),
        }
    }
}

impl Finding {
    /// The call that found it, in one line.
    pub fn by(&self) -> String {
        match self {
            Finding::Call(difference) => difference.call.to_string(),
            Finding::Series(_) => "a series of supply returns".to_string(),
        }
    }
}

type Checked<T> = Result<T, Finding>;

impl<A: Panel, B: Panel> Driver<A, B> {
    pub fn new(first: A, second: B, seed: u64) -> Driver<A, B> {
        Driver { bench: Bench::new(first, second), random: Random::new(seed), coverage: Coverage::default() }
    }

    /// Makes the call on any bytes, and compares.
    fn call_on(&mut self, image: &[u8], call: &Call) -> Checked<u32> {
        let salt = self.random.draw();
        let number = self.bench.run(image, call, salt)?;
        self.coverage.count(image, call, number, self.bench.image());
        Ok(number)
    }

    /// Makes the call on an image that goes on with what the call left.
    fn call(&mut self, image: &mut Image, call: &Call) -> Checked<u32> {
        let before = *image;
        let number = self.call_on(&before, call)?;
        *image = self.bench.image().try_into().unwrap_or([0; IMAGE_LEN]);
        Ok(number)
    }

    /// Plays random scenes until `calls` calls have been made.
    pub fn play(&mut self, calls: u64) -> Checked<()> {
        while self.coverage.calls < calls {
            self.scene()?;
        }
        Ok(())
    }
}
