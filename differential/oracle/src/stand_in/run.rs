//! A stand-in of our own for a run of tables with disjoint, rising keys.

use crate::{Table, UserKey};
use std::ops::RangeBounds;

pub struct Run<T> {
    tables: Vec<T>,
}

impl<T> Run<T> {
    pub fn new(tables: Vec<T>) -> Self {
        Self { tables }
    }

    pub fn len(&self) -> usize {
        self.tables.len()
    }

    pub fn is_empty(&self) -> bool {
        self.tables.is_empty()
    }

    pub fn first(&self) -> Option<&T> {
        self.tables.first()
    }

    pub fn get(&self, number: usize) -> Option<&T> {
        self.tables.get(number)
    }
}

impl Run<Table> {
    /// The first and the last table that the bounds touch.
    pub fn range_overlap_indexes<R: RangeBounds<UserKey>>(
        &self,
        range: &R,
    ) -> Option<(usize, usize)> {
        let bounds = (
            range.start_bound().map(|key| &**key),
            range.end_bound().map(|key| &**key),
        );
        let touched = |table: &Table| table.check_key_range_overlap(&bounds);
        let first = self.tables.iter().position(touched)?;
        let last = self.tables.iter().rposition(touched)?;
        Some((first, last))
    }
}
