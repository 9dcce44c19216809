//! A record as the outside gives it, and its number, carried in the value.

use crate::{InternalValue, ValueType};

#[derive(Clone, Debug, PartialEq, Eq)]
pub struct Row {
    pub key: Vec<u8>,
    pub seqno: u64,
    pub tag: ValueType,
    pub value: Vec<u8>,
}

const MARK: usize = 4;

/// The Rust's record of a row. Panics where the Rust does.
pub fn plain(row: &Row) -> InternalValue {
    InternalValue::from_components(&*row.key, &*row.value, row.seqno, row.tag)
}

/// The same with the number in front of the value, to know the record again.
pub fn marked(number: usize, row: &Row) -> InternalValue {
    InternalValue::from_components(
        &*row.key,
        mark_value(number, &row.value),
        row.seqno,
        row.tag,
    )
}

pub fn mark_value(number: usize, value: &[u8]) -> Vec<u8> {
    let number = u32::try_from(number).expect("record numbers have 32 bits");
    let mut bytes = number.to_le_bytes().to_vec();
    bytes.extend_from_slice(value);
    bytes
}

pub fn number_of(item: &InternalValue) -> usize {
    let mut bytes = [0; MARK];
    bytes.copy_from_slice(&item.value[..MARK]);
    u32::from_le_bytes(bytes) as usize
}

/// The row of a marked record.
pub fn unmarked(item: &InternalValue) -> Row {
    row_of(item, &item.value[MARK..])
}

/// The row of a plain record.
pub fn unplain(item: &InternalValue) -> Row {
    row_of(item, &item.value)
}

fn row_of(item: &InternalValue, value: &[u8]) -> Row {
    Row {
        key: item.key.user_key.to_vec(),
        seqno: item.key.seqno,
        tag: item.key.value_type,
        value: value.to_vec(),
    }
}
