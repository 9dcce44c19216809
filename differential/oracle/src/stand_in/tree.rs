//! A stand-in of our own for the one name taken from the crate's tree.

pub mod inner {
    pub type MemtableId = u64;
}
