//! The order of two versions.

use super::row::Row;
use crate::key::InternalKey;
use std::cmp::Ordering;

pub fn order(left: &Row, right: &Row) -> Ordering {
    key(left).cmp(&key(right))
}

fn key(row: &Row) -> InternalKey {
    InternalKey::new(&*row.key, row.seqno, row.tag)
}
