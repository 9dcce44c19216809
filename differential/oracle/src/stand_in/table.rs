//! A stand-in of our own for the table on disk: its records in memory, in
//! order. An inverted range holds nothing; a table may be empty.

use crate::{InternalValue, UserKey};
use std::ops::{Bound, Range, RangeBounds};
use std::sync::Arc;

#[derive(Clone)]
pub struct Table {
    records: Arc<[InternalValue]>,
}

pub struct TableIter {
    records: Arc<[InternalValue]>,
    left: Range<usize>,
}

impl Table {
    pub fn new(records: Vec<InternalValue>) -> Self {
        Self {
            records: records.into(),
        }
    }

    pub fn iter(&self) -> TableIter {
        self.range(..)
    }

    pub fn range<R: RangeBounds<UserKey>>(&self, range: R) -> TableIter {
        let lower = range.start_bound().map(|key| &**key);
        let upper = range.end_bound().map(|key| &**key);
        let start = self
            .records
            .partition_point(|item| !above(lower, &item.key.user_key));
        let end = self
            .records
            .partition_point(|item| below(upper, &item.key.user_key));
        TableIter {
            records: self.records.clone(),
            left: start..end.max(start),
        }
    }

    /// Whether some place between the first key and the last is in the bounds.
    pub fn check_key_range_overlap(&self, bounds: &(Bound<&[u8]>, Bound<&[u8]>)) -> bool {
        let (Some(first), Some(last)) = (self.records.first(), self.records.last()) else {
            return false;
        };
        below(bounds.1, &first.key.user_key) && above(bounds.0, &last.key.user_key)
    }
}

fn above(lower: Bound<&[u8]>, key: &[u8]) -> bool {
    match lower {
        Bound::Included(bound) => bound <= key,
        Bound::Excluded(bound) => bound < key,
        Bound::Unbounded => true,
    }
}

fn below(upper: Bound<&[u8]>, key: &[u8]) -> bool {
    match upper {
        Bound::Included(bound) => key <= bound,
        Bound::Excluded(bound) => key < bound,
        Bound::Unbounded => true,
    }
}

impl TableIter {
    fn item(&self, number: usize) -> crate::Result<InternalValue> {
        Ok(self.records[number].clone())
    }
}

impl Iterator for TableIter {
    type Item = crate::Result<InternalValue>;

    fn next(&mut self) -> Option<Self::Item> {
        let number = self.left.next()?;
        Some(self.item(number))
    }
}

impl DoubleEndedIterator for TableIter {
    fn next_back(&mut self) -> Option<Self::Item> {
        let number = self.left.next_back()?;
        Some(self.item(number))
    }
}
