//! A sequence of calls on one memtable.

use super::row::{plain, unplain, Row};
use crate::memtable::Memtable;

pub enum Call {
    Insert(Row),
    Get { key: Vec<u8>, seqno: u64 },
    All,
    Size,
    Len,
    Highest,
    Flag,
    Flagged,
    Id,
}

pub enum Answer {
    /// What the record took, and the size after it.
    Inserted(u64, u64),
    /// The record's place in order, and the record.
    Found(Option<(usize, Row)>),
    All(Vec<Row>),
    Number(u64),
    Highest(Option<u64>),
    Done,
    Flagged(bool),
}

/// Makes a memtable and answers the calls in turn.
pub fn answers(id: u64, calls: &[Call]) -> Vec<Answer> {
    let memtable = Memtable::new(id);
    calls.iter().map(|call| answer(&memtable, call)).collect()
}

fn answer(memtable: &Memtable, call: &Call) -> Answer {
    match call {
        Call::Insert(row) => {
            let (share, total) = memtable.insert(plain(row));
            Answer::Inserted(share, total)
        }
        Call::Get { key, seqno } => Answer::Found(find(memtable, key, *seqno)),
        Call::All => Answer::All(memtable.iter().map(|item| unplain(&item)).collect()),
        Call::Size => Answer::Number(memtable.size()),
        Call::Len => Answer::Number(memtable.len() as u64),
        Call::Highest => Answer::Highest(memtable.get_highest_seqno()),
        Call::Flag => {
            memtable.flag_rotated();
            Answer::Done
        }
        Call::Flagged => Answer::Flagged(memtable.is_flagged_for_rotation()),
        Call::Id => Answer::Number(memtable.id()),
    }
}

fn find(memtable: &Memtable, key: &[u8], seqno: u64) -> Option<(usize, Row)> {
    let found = memtable.get(key, seqno)?;
    let before = memtable.iter().take_while(|item| item.key < found.key);
    Some((before.count(), unplain(&found)))
}
