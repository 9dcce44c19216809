//! Random keys, seqnos, tags and rows, crowded around the places that matter.

use oracle::engine::Row;
use oracle::random::Random;
use oracle::ValueType;
use std::cmp::Reverse;

pub const TAGS: [ValueType; 4] = [
    ValueType::Value,
    ValueType::Tombstone,
    ValueType::WeakTombstone,
    ValueType::Indirection,
];

const LETTERS: [u8; 5] = [0x00, b'a', b'b', 0xfe, 0xff];

/// Keys that are prefixes of one another, neighbours, or long with a common start.
pub fn keys(random: &mut Random, count: usize) -> Vec<Vec<u8>> {
    let start = match random.below(36) {
        0 => vec![b'p'; 300],
        1..=4 => vec![b'p'; random.within(1, 24)],
        _ => Vec::new(),
    };
    let longest = if count > 20 { 4 } else { 3 };
    (0..count)
        .map(|_| [start.clone(), letters(random, 1, longest)].concat())
        .collect()
}

pub fn letters(random: &mut Random, shortest: usize, longest: usize) -> Vec<u8> {
    let length = random.within(shortest, longest);
    (0..length).map(|_| *random.pick(&LETTERS)).collect()
}

/// Mostly small, so that versions meet; now and then at the far end.
pub fn seqno(random: &mut Random) -> u64 {
    match random.below(16) {
        0 => u64::MAX,
        1 => u64::MAX - 1,
        2 => random.next() >> random.below(64),
        3 => 0,
        _ => random.below(9) as u64,
    }
}

/// A number at, just above or just below one of the seqnos, or anywhere.
pub fn around(random: &mut Random, rows: &[Row]) -> u64 {
    if rows.is_empty() || random.one_in(4) {
        return seqno(random);
    }
    let near = random.pick(rows).seqno;
    match random.below(4) {
        0 => near,
        1 => near.saturating_sub(1),
        _ => near.saturating_add(1),
    }
}

/// All kinds, values more often than the others.
pub fn row(random: &mut Random, keys: &[Vec<u8>]) -> Row {
    let tag = match random.below(3) {
        0 => ValueType::Value,
        _ => *random.pick(&TAGS),
    };
    Row {
        key: random.pick(keys).clone(),
        seqno: seqno(random),
        tag,
        value: value(random, tag),
    }
}

/// Tombstones seldom carry a value, though they may.
fn value(random: &mut Random, tag: ValueType) -> Vec<u8> {
    if tag.is_tombstone() && !random.one_in(16) {
        return Vec::new();
    }
    let length = if random.one_in(40) {
        70
    } else {
        random.below(4)
    };
    (0..length).map(|_| random.below(256) as u8).collect()
}

/// Rows in strict order, no key and seqno twice: the lower place stays.
pub fn in_order(mut rows: Vec<Row>) -> Vec<Row> {
    rows.sort_by(|left, right| place(left).cmp(&place(right)));
    rows.dedup_by(|later, earlier| place(later) == place(earlier));
    rows
}

pub fn place(row: &Row) -> (&[u8], Reverse<u64>) {
    (&row.key, Reverse(row.seqno))
}
