//! Stand-ins of our own for what the crate's ten files lean on. Agreement that
//! rests on one of these is no evidence about the published crate.

#[macro_use]
mod fail_iter;
mod self_cell;

pub mod error;
pub mod interval_heap;
pub mod run;
pub mod skip_map;
pub mod slice;
pub mod table;
pub mod tree;
pub mod version;
