//! A stand-in of our own for the macro of the crate's root file.
//! It hands an error out of an iterator's step.

macro_rules! fail_iter {
    ($step:expr) => {
        match $step {
            Ok(good) => good,
            Err(bad) => return Some(Err(bad)),
        }
    };
}
