//! What was measured of a row.

use crate::measure::{Spread, Times};
use crate::rows::{Pair, Row};

pub struct Figure {
    pub row: Row,
    /// What one run handles.
    units: f64,
    bytes: f64,
    times: Times,
}

/// Of one side: nanoseconds a unit, and mebibytes a second.
pub struct Speed {
    pub nanoseconds: f64,
    pub megabytes: f64,
}

impl Figure {
    pub fn new(row: Row, pair: &Pair, times: Times) -> Self {
        Self {
            row,
            units: pair.units as f64,
            bytes: pair.bytes as f64,
            times,
        }
    }

    pub fn ours(&self) -> Speed {
        self.speed(self.times.ours())
    }

    pub fn theirs(&self) -> Speed {
        self.speed(self.times.theirs())
    }

    /// Ours to theirs, over the rounds.
    pub fn ratio(&self) -> Spread {
        self.times.ratio()
    }

    fn speed(&self, run: f64) -> Speed {
        Speed {
            nanoseconds: run / self.units,
            megabytes: self.bytes * 1e3 / run,
        }
    }
}
