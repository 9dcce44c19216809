//! What both sides are given: drawn records, and the bytes of a list.

use crate::paths;
use oracle::engine::Row;
use oracle::random::Random;
use oracle::ValueType;

pub const HEADER: usize = 9;

#[derive(Clone, Copy, PartialEq, Eq)]
pub enum Keys {
    /// Of so many bytes; `draw` makes all but the last two the same in every key.
    Made(usize),
    /// Call paths of a program.
    Recorded,
}

/// How records are drawn.
#[derive(Clone, Copy)]
pub struct Shape {
    pub records: usize,
    pub keys: Keys,
    /// Bytes of a value; a tombstone has none.
    pub value: usize,
    /// Versions of each key.
    pub versions: usize,
    /// One record in so many is a tombstone; 0 for none.
    pub tombstones: usize,
}

impl Shape {
    /// Keys of this length with one version each and values of 16 bytes.
    pub fn plain(records: usize, key: usize) -> Self {
        Self {
            records,
            keys: Keys::Made(key),
            value: 16,
            versions: 1,
            tombstones: 0,
        }
    }

    /// All recorded call paths, the rest as `plain` has it.
    pub fn recorded() -> Self {
        Self {
            keys: Keys::Recorded,
            ..Self::plain(paths::all().len(), 0)
        }
    }

    /// The same with several versions a key, one in sixteen of them a tombstone.
    pub fn versions(self, versions: usize) -> Self {
        Self {
            versions,
            tombstones: 16,
            ..self
        }
    }
}

/// Records in order, no two with the same seqno.
pub fn draw(shape: Shape, random: &mut Random) -> Vec<Row> {
    let mut seqnos: Vec<u64> = (1..=shape.records as u64).collect();
    random.shuffle(&mut seqnos);
    let numbered = seqnos.into_iter().enumerate();
    let mut rows: Vec<Row> = numbered
        .map(|(number, seqno)| row(shape, number / shape.versions, seqno, random))
        .collect();
    rows.sort_by(|a, b| a.key.cmp(&b.key).then(b.seqno.cmp(&a.seqno)));
    rows
}

/// The records spread over so many lists, each of which keeps their order.
pub fn spread(rows: &[Row], lists: usize, random: &mut Random) -> Vec<Vec<Row>> {
    let mut spread = vec![Vec::new(); lists];
    for row in rows {
        spread[random.below(lists)].push(row.clone());
    }
    spread
}

fn row(shape: Shape, key: usize, seqno: u64, random: &mut Random) -> Row {
    let dead = shape.tombstones > 0 && random.below(shape.tombstones) == 0;
    let (tag, length) = if dead {
        (ValueType::Tombstone, 0)
    } else {
        (ValueType::Value, shape.value)
    };
    Row {
        key: path(shape, key),
        seqno,
        tag,
        value: (0..length).map(|_| random.next() as u8).collect(),
    }
}

/// The key of this number. Where there are fewer keys than recorded paths, they are evenly spaced among these.
fn path(shape: Shape, number: usize) -> Vec<u8> {
    match shape.keys {
        Keys::Made(length) => made(length, number),
        Keys::Recorded => {
            let (paths, keys) = (paths::all(), shape.records.div_ceil(shape.versions));
            paths[number * paths.len() / keys].clone()
        }
    }
}

/// A call path of this length, whose last two bytes alone tell it from the others.
fn made(length: usize, number: usize) -> Vec<u8> {
    let number = u16::try_from(number).expect("two bytes number the keys");
    let shared = b"main;serve;render;font;".iter().cycle();
    let mut key: Vec<u8> = shared.take(length - 2).copied().collect();
    key.extend(number.to_be_bytes());
    key
}

/// The bytes of a list.
pub fn encode(rows: &[Row]) -> Vec<u8> {
    let mut bytes = Vec::new();
    header(&mut bytes, rows.len());
    for row in rows {
        record(&mut bytes, &row.key, row.seqno, row.tag, &row.value);
    }
    bytes
}

pub fn header(bytes: &mut Vec<u8>, count: usize) {
    bytes.extend_from_slice(b"VLS\x01\x00");
    bytes.extend_from_slice(&(count as u32).to_le_bytes());
}

#[inline]
pub fn record(bytes: &mut Vec<u8>, key: &[u8], seqno: u64, tag: ValueType, value: &[u8]) {
    bytes.extend_from_slice(&(key.len() as u16).to_le_bytes());
    bytes.extend_from_slice(key);
    bytes.extend_from_slice(&seqno.to_le_bytes());
    bytes.push(tag.into());
    bytes.extend_from_slice(&(value.len() as u32).to_le_bytes());
    bytes.extend_from_slice(value);
}
