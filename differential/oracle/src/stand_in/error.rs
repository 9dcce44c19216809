//! A stand-in of our own for the crate's error type. No stream here holds one.

#[derive(Debug)]
pub struct Error;

pub type Result<T> = std::result::Result<T, Error>;
