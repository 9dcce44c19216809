//! Compaction of one list.

use super::row::{mark_value, marked, number_of, unmarked, Row};
use crate::compaction::stream::{
    CompactionStream, DroppedKvCallback, StreamFilter, StreamFilterVerdict,
};
use crate::{InternalValue, ValueType};

pub struct Rule {
    pub threshold: u64,
    pub evict: bool,
    pub zero: bool,
}

/// What the filter says of a record.
pub enum Verdict {
    Keep,
    Drop,
    Replace(ValueType, Vec<u8>),
}

pub struct Compacted {
    /// Each kept record as it left, with its input number.
    pub kept: Vec<(usize, Row)>,
    /// Input numbers in the order of the callbacks.
    pub dropped: Vec<usize>,
}

/// Compacts rows in the order given.
pub fn compact(rows: &[Row], rule: &Rule, verdicts: Option<&[Verdict]>) -> Compacted {
    let mut drops = Drops(Vec::new());
    let stream = stream(items(rows), rule, &mut drops);
    let kept = match verdicts {
        None => collect(stream),
        Some(verdicts) => collect(stream.with_filter(ByTable(verdicts))),
    };
    Compacted {
        kept,
        dropped: drops.0,
    }
}

/// The Rust's records of the rows, each with its number in front of the value.
pub fn items(rows: &[Row]) -> Vec<InternalValue> {
    let numbered = rows.iter().enumerate();
    numbered.map(|(number, row)| marked(number, row)).collect()
}

/// The Rust's stream over the items, without a filter.
pub fn stream<'a>(
    items: Vec<InternalValue>,
    rule: &Rule,
    drops: &'a mut dyn DroppedKvCallback,
) -> CompactionStream<'a, impl Iterator<Item = crate::Result<InternalValue>>> {
    CompactionStream::new(items.into_iter().map(Ok), rule.threshold)
        .evict_tombstones(rule.evict)
        .zero_seqnos(rule.zero)
        .with_drop_callback(drops)
}

fn collect(stream: impl Iterator<Item = crate::Result<InternalValue>>) -> Vec<(usize, Row)> {
    stream
        .map(|item| item.expect("no stream here holds an error"))
        .map(|item| (number_of(&item), unmarked(&item)))
        .collect()
}

struct Drops(Vec<usize>);

impl DroppedKvCallback for Drops {
    fn on_dropped(&mut self, item: &InternalValue) {
        self.0.push(number_of(item));
    }
}

struct ByTable<'a>(&'a [Verdict]);

impl StreamFilter for ByTable<'_> {
    fn filter_item(&mut self, item: &InternalValue) -> crate::Result<StreamFilterVerdict> {
        let number = number_of(item);
        Ok(match &self.0[number] {
            Verdict::Keep => StreamFilterVerdict::Keep,
            Verdict::Drop => StreamFilterVerdict::Drop,
            Verdict::Replace(tag, value) => {
                StreamFilterVerdict::Replace((*tag, mark_value(number, value).into()))
            }
        })
    }
}
