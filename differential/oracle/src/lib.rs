//! The in-memory read and compaction core of lsm-tree 3.1.10, as published,
//! behind plain functions.
//!
//! Ten files of the crate are compiled unchanged from outside the repository.
//! What their text leans on and does not hold stands in `stand_in`, one file
//! each. `engine` drives both; `protocol` speaks to the outside;
//! `random` draws cases.

// The names under which the crate's files import outside crates.
extern crate self as crossbeam_skiplist;
extern crate self as interval_heap;
extern crate self as self_cell;

#[macro_use]
mod stand_in;

include!(concat!(env!("OUT_DIR"), "/crate_files.rs"));

pub mod engine;
pub mod protocol;
pub mod random;

pub use merge::BoxedIterator;
pub use stand_in::error::{Error, Result};
pub use stand_in::interval_heap::IntervalHeap;
pub use stand_in::skip_map::SkipMap;
pub use stand_in::slice::Slice;
pub use stand_in::table::Table;
pub use stand_in::{tree, version};
pub use value::{InternalValue, SeqNo, UserKey, UserValue};
pub use value_type::ValueType;
