//! The bytes of lists, tables and cases.

use oracle::engine::read::Place;
use oracle::engine::Row;
use std::ops::Bound;

/// A case with its length word fits a replayer's fixed buffer.
const CASE_LIMIT: usize = 16 * 1024;

pub struct Case(Vec<u8>);

impl Case {
    pub fn new() -> Self {
        Self(Vec::new())
    }

    pub fn bytes(mut self, bytes: &[u8]) -> Self {
        self.0.extend(word(bytes.len()));
        self.0.extend_from_slice(bytes);
        self
    }

    pub fn number(self, number: u64) -> Self {
        self.bytes(&number.to_le_bytes())
    }

    pub fn bound(self, bound: &Bound<Vec<u8>>) -> Self {
        let (kind, key): (u8, &[u8]) = match bound {
            Bound::Unbounded => (0, &[]),
            Bound::Included(key) => (1, key),
            Bound::Excluded(key) => (2, key),
        };
        self.bytes(&[&[kind], key].concat())
    }
}

/// All cases end to end, and a length of 0 behind the last.
pub fn file(cases: &[Case]) -> Vec<u8> {
    let mut bytes = Vec::new();
    for Case(fields) in cases {
        assert!(fields.len() + 4 <= CASE_LIMIT, "a case is too long");
        bytes.extend(word(fields.len()));
        bytes.extend_from_slice(fields);
    }
    bytes.extend(word(0));
    bytes
}

/// A list in the paper's form. The rows must stand in strict order.
pub fn list<'a>(rows: impl IntoIterator<Item = &'a Row>) -> Vec<u8> {
    let rows: Vec<&Row> = rows.into_iter().collect();
    let in_order = |pair: &[&Row]| order_key(pair[0]) < order_key(pair[1]);
    assert!(rows.windows(2).all(in_order), "no list: out of order");
    let mut bytes = b"VLS\x01\x00".to_vec();
    bytes.extend(word(rows.len()));
    for row in rows {
        record(&mut bytes, row);
    }
    bytes
}

fn order_key(row: &Row) -> (&[u8], std::cmp::Reverse<u64>) {
    (&row.key, std::cmp::Reverse(row.seqno))
}

fn record(bytes: &mut Vec<u8>, row: &Row) {
    let key_length = u16::try_from(row.key.len()).expect("a key has at most 65,535 bytes");
    assert!(key_length > 0, "no record: its key is empty");
    bytes.extend(key_length.to_le_bytes());
    bytes.extend_from_slice(&row.key);
    bytes.extend(row.seqno.to_le_bytes());
    bytes.push(row.tag.into());
    bytes.extend(word(row.value.len()));
    bytes.extend_from_slice(&row.value);
}

/// A table of 32-bit entries.
pub fn table(numbers: impl IntoIterator<Item = usize>) -> Vec<u8> {
    numbers.into_iter().flat_map(word).collect()
}

/// One byte for found or not, then list and record, for each step.
pub fn answers(places: &[Option<Place>]) -> Vec<u8> {
    let mut bytes = Vec::new();
    for place in places {
        let (list, record) = place.unwrap_or((0, 0));
        bytes.push(u8::from(place.is_some()));
        bytes.extend(word(list));
        bytes.extend(word(record));
    }
    bytes
}

fn word(number: usize) -> [u8; 4] {
    u32::try_from(number).expect("32 bits").to_le_bytes()
}
