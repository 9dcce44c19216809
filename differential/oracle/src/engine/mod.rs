//! The Rust's engines behind plain data. Every answer here is the Rust's; these
//! functions only carry rows in and out.

pub mod compact;
pub mod memtable;
pub mod order;
pub mod prefix;
pub mod read;
pub mod row;

pub use row::Row;
