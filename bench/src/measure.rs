//! Timing: both sides in turn, round by round.

use crate::clock::now;
use std::hint::black_box;
use std::time::Duration;

/// Runs a piece of work so many times and tells how long that took.
pub type Side = Box<dyn FnMut(usize) -> Duration>;

/// Work that can be done again and again.
pub fn steady<T>(mut work: impl FnMut() -> T + 'static) -> Side {
    Box::new(move |times| {
        let start = now();
        for _ in 0..times {
            black_box(work());
        }
        now() - start
    })
}

/// Work whose time leaves out how what it is given is made, and how what it gives is thrown away.
pub fn fresh<I, T>(
    mut make: impl FnMut() -> I + 'static,
    mut work: impl FnMut(I) -> T + 'static,
) -> Side {
    Box::new(move |times| {
        let mut sum = Duration::ZERO;
        for _ in 0..times {
            let made = black_box(make());
            let start = now();
            let done = black_box(work(made));
            sum += now() - start;
            drop(done);
        }
        sum
    })
}

/// Nanoseconds of one run on each side, by round.
pub struct Times {
    ours: Vec<f64>,
    theirs: Vec<f64>,
}

pub struct Spread {
    pub median: f64,
    pub lowest: f64,
    pub highest: f64,
}

impl Times {
    pub fn ours(&self) -> f64 {
        spread(self.ours.clone()).median
    }

    pub fn theirs(&self) -> f64 {
        spread(self.theirs.clone()).median
    }

    /// Ours to theirs, round by round.
    pub fn ratio(&self) -> Spread {
        let rounds = self.ours.iter().zip(&self.theirs);
        spread(rounds.map(|(ours, theirs)| ours / theirs).collect())
    }
}

fn spread(mut all: Vec<f64>) -> Spread {
    all.sort_by(f64::total_cmp);
    let middle = all.len() / 2;
    let median = if all.len() % 2 == 1 {
        all[middle]
    } else {
        (all[middle - 1] + all[middle]) / 2.0
    };
    Spread {
        median,
        lowest: all[0],
        highest: all[all.len() - 1],
    }
}

/// Times both sides; the one that goes first changes from round to round.
pub fn measure(ours: &mut Side, theirs: &mut Side, rounds: usize, batch: Duration) -> Times {
    let enough = (times_for(ours, batch), times_for(theirs, batch));
    let mut times = Times {
        ours: Vec::new(),
        theirs: Vec::new(),
    };
    for round in 0..rounds {
        if round % 2 == 0 {
            times.ours.push(one_run(ours, enough.0));
            times.theirs.push(one_run(theirs, enough.1));
        } else {
            times.theirs.push(one_run(theirs, enough.1));
            times.ours.push(one_run(ours, enough.0));
        }
    }
    times
}

/// Nanoseconds of one run, from so many.
fn one_run(side: &mut Side, times: usize) -> f64 {
    side(times).as_nanos() as f64 / times as f64
}

/// How many runs fill the batch. Warms up on the way.
fn times_for(side: &mut Side, batch: Duration) -> usize {
    let mut times = 1;
    loop {
        let took = side(times);
        if took * 2 >= batch {
            return times;
        }
        times *= 2;
    }
}
