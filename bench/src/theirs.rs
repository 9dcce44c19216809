//! The Rust's side: bytes into its records, its engines, and bytes again.

use crate::lists::{header, record, HEADER};
use oracle::compaction::stream::{
    CompactionStream, DroppedKvCallback, NoFilter, StreamFilter, StreamFilterVerdict,
};
use oracle::engine::compact::Rule;
use oracle::engine::read::{hold, Bounds, Held, Kind, List};
use oracle::engine::Row;
use oracle::memtable::Memtable;
use oracle::{InternalValue, ValueType};
use std::cmp::Reverse;
use std::ops::Bound;

/// The fields of a list's bytes, record by record. Ends early where the bytes are no list.
pub struct Decoder<'a> {
    bytes: &'a [u8],
    left: u32,
}

/// A record where it lies.
pub struct Fields<'a> {
    pub key: &'a [u8],
    pub seqno: u64,
    pub tag: ValueType,
    pub value: &'a [u8],
}

impl Fields<'_> {
    /// What records are ordered by.
    fn order(&self) -> (&[u8], Reverse<u64>) {
        (self.key, Reverse(self.seqno))
    }

    /// The Rust's record, with its own key and value.
    pub fn item(self) -> InternalValue {
        InternalValue::from_components(self.key, self.value, self.seqno, self.tag)
    }
}

impl<'a> Decoder<'a> {
    pub fn new(list: &'a [u8]) -> Option<Self> {
        let (header, bytes) = list.split_at_checked(HEADER)?;
        let (mark, count) = header.split_at(5);
        let left = u32::from_le_bytes(count.try_into().ok()?);
        (mark == *b"VLS\x01\x00").then_some(Self { bytes, left })
    }

    /// Whether every record was taken and nothing stands behind the last.
    pub fn done(&self) -> bool {
        self.left == 0 && self.bytes.is_empty()
    }

    fn take(&mut self, length: usize) -> Option<&'a [u8]> {
        let (taken, bytes) = self.bytes.split_at_checked(length)?;
        self.bytes = bytes;
        Some(taken)
    }

    fn number<const N: usize>(&mut self) -> Option<[u8; N]> {
        self.take(N)?.try_into().ok()
    }
}

impl<'a> Iterator for Decoder<'a> {
    type Item = Fields<'a>;

    #[inline]
    fn next(&mut self) -> Option<Fields<'a>> {
        self.left = self.left.checked_sub(1)?;
        let length = u16::from_le_bytes(self.number()?);
        let key = self.take(length.into())?;
        let seqno = u64::from_le_bytes(self.number()?);
        let [tag] = self.number()?;
        let tag = ValueType::try_from(tag).ok()?;
        let length = u32::from_le_bytes(self.number()?);
        let value = self.take(length as usize)?;
        Some(Fields {
            key,
            seqno,
            tag,
            value,
        })
    }
}

/// Decodes a list into the Rust's records, checks their order as it does, and counts them.
pub fn check(list: &[u8]) -> Option<u64> {
    let mut decoder = Decoder::new(list)?;
    let mut count = 0;
    let mut last: Option<InternalValue> = None;
    for item in decoder.by_ref().map(Fields::item) {
        if last.is_some_and(|last| last.key >= item.key) {
            return None;
        }
        last = Some(item);
        count += 1;
    }
    decoder.done().then_some(count)
}

/// The same with the records left where they lie.
pub fn check_in_place(list: &[u8]) -> Option<u64> {
    let mut decoder = Decoder::new(list)?;
    let mut count = 0;
    let mut last: Option<Fields> = None;
    for now in decoder.by_ref() {
        if last.is_some_and(|last| last.order() >= now.order()) {
            return None;
        }
        last = Some(now);
        count += 1;
    }
    decoder.done().then_some(count)
}

/// Decodes a list into the Rust's records and checks their order.
pub fn open(list: &[u8]) -> Option<Vec<InternalValue>> {
    let mut decoder = Decoder::new(list)?;
    let mut items: Vec<InternalValue> = Vec::with_capacity(decoder.left as usize);
    for item in decoder.by_ref().map(Fields::item) {
        if items.last().is_some_and(|last| last.key >= item.key) {
            return None;
        }
        items.push(item);
    }
    decoder.done().then_some(items)
}

/// What a compaction drops, by seqno.
#[derive(Default)]
pub struct Drops(pub Vec<u64>);

impl DroppedKvCallback for Drops {
    fn on_dropped(&mut self, item: &InternalValue) {
        self.0.push(item.key.seqno);
    }
}

/// A filter that keeps or drops a record by a table with an entry for each seqno: the stream tells no record's number.
pub struct BySeqno<'a>(pub &'a [bool]);

impl StreamFilter for BySeqno<'_> {
    fn filter_item(&mut self, item: &InternalValue) -> oracle::Result<StreamFilterVerdict> {
        if self.0[item.key.seqno as usize] {
            return Ok(StreamFilterVerdict::Keep);
        }
        Ok(StreamFilterVerdict::Drop)
    }
}

/// The Rust's stream over records.
pub fn stream<'a>(
    items: impl Iterator<Item = InternalValue> + 'a,
    rule: &Rule,
    drops: &'a mut Drops,
) -> impl Iterator<Item = InternalValue> + 'a {
    filtered_stream(items, rule, NoFilter, drops)
}

/// The same with a filter. Inlined, so that each caller has a loop of its own.
#[inline(always)]
fn filtered_stream<'a>(
    items: impl Iterator<Item = InternalValue> + 'a,
    rule: &Rule,
    filter: impl StreamFilter + 'a,
    drops: &'a mut Drops,
) -> impl Iterator<Item = InternalValue> + 'a {
    CompactionStream::new(items.map(Ok), rule.threshold)
        .with_filter(filter)
        .evict_tombstones(rule.evict)
        .zero_seqnos(rule.zero)
        .with_drop_callback(drops)
        .map(|item| item.expect("no stream here holds an error"))
}

/// Compacts a list's bytes into the bytes of the new list.
pub fn compact(list: &[u8], rule: &Rule, out: &mut Vec<u8>, drops: &mut Drops) {
    drops.0.clear();
    write(stream(items(list), rule, drops), out);
}

pub fn compact_filtered(
    list: &[u8],
    rule: &Rule,
    filter: impl StreamFilter,
    out: &mut Vec<u8>,
    drops: &mut Drops,
) {
    drops.0.clear();
    write(filtered_stream(items(list), rule, filter, drops), out);
}

fn items(list: &[u8]) -> impl Iterator<Item = InternalValue> + '_ {
    Decoder::new(list).expect("a list").map(Fields::item)
}

/// The list of these records. Inlined, so that each caller has a loop of its own.
#[inline(always)]
fn write(items: impl Iterator<Item = InternalValue>, out: &mut Vec<u8>) {
    out.clear();
    header(out, 0);
    let mut kept = 0u32;
    for item in items {
        let key = &item.key;
        record(out, &key.user_key, key.seqno, key.value_type, &item.value);
        kept += 1;
    }
    out[5..HEADER].copy_from_slice(&kept.to_le_bytes());
}

/// Each list as a table in memory, which is a run of its own.
pub fn held(lists: &[Vec<Row>]) -> Held {
    let lists: Vec<List> = lists
        .iter()
        .map(|rows| List {
            kind: Kind::Table,
            rows: rows.clone(),
        })
        .collect();
    hold(&lists)
}

pub const EVERYTHING: Bounds = Bounds {
    lower: Bound::Unbounded,
    upper: Bound::Unbounded,
};

/// A memtable of the rows, put in one by one.
pub fn memtable(rows: &[Row]) -> Memtable {
    let memtable = Memtable::new(0);
    for row in rows {
        memtable.insert(oracle::engine::row::plain(row));
    }
    memtable
}

/// The bytes of the list that a memtable holds.
pub fn image(memtable: &Memtable) -> Vec<u8> {
    let mut bytes = Vec::new();
    header(&mut bytes, memtable.len());
    for item in memtable.iter() {
        let key = &item.key;
        record(
            &mut bytes,
            &key.user_key,
            key.seqno,
            key.value_type,
            &item.value,
        );
    }
    bytes
}
