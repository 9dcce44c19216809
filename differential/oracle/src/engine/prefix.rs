//! A prefix and its bounds.

use super::read::Bounds;
use crate::range::{prefix_to_range, prefix_upper_range};
use crate::UserKey;
use std::ops::Bound;

pub fn bounds(prefix: &[u8]) -> Bounds {
    let (lower, upper) = prefix_to_range(prefix);
    Bounds {
        lower: bytes(lower),
        upper: bytes(upper),
    }
}

/// The upper bound alone, which the Rust refuses for the empty prefix.
pub fn upper(prefix: &[u8]) -> Bound<Vec<u8>> {
    bytes(prefix_upper_range(prefix))
}

fn bytes(bound: Bound<UserKey>) -> Bound<Vec<u8>> {
    bound.map(|key| key.to_vec())
}
