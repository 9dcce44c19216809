//! Sequences of calls on one memtable.

use crate::draw;
use crate::form::{self, Case};
use oracle::engine::memtable::{answers, Answer, Call};
use oracle::engine::Row;
use oracle::random::Random;

const SEED: u64 = 0x4d45_4d54_4142_4c45;
const CASES: usize = 550;

pub fn cases() -> Vec<Case> {
    let mut random = Random::new(SEED);
    (0..CASES).map(|_| case(&mut random)).collect()
}

fn case(random: &mut Random) -> Case {
    let id = draw::seqno(random);
    let calls = calls(random);
    let letters: Vec<u8> = calls.iter().map(letter).collect();
    let case = Case::new().number(id).bytes(&letters);
    let answers = answers(id, &calls);
    calls
        .iter()
        .zip(&answers)
        .fold(case, |case, (call, answer)| told(asked(case, call), answer))
}

/// Ends with the whole contents, the highest seqno, the flag and the id.
fn calls(random: &mut Random) -> Vec<Call> {
    let count = random.within(1, 5);
    let keys = draw::keys(random, count);
    let mut rows: Vec<Row> = Vec::new();
    let mut calls = Vec::new();
    for _ in 0..random.within(0, 14) {
        let call = one_call(random, &keys, &rows);
        if let Call::Insert(row) = &call {
            rows.push(row.clone());
        }
        calls.push(call);
    }
    calls.extend([Call::All, Call::Highest, Call::Flagged, Call::Id]);
    calls
}

fn one_call(random: &mut Random, keys: &[Vec<u8>], rows: &[Row]) -> Call {
    match random.below(20) {
        0 => Call::All,
        1 | 2 => Call::Highest,
        3 if random.one_in(3) => Call::Flag,
        3 => Call::Flagged,
        4..=9 => get(random, keys, rows),
        _ => Call::Insert(draw::row(random, keys)),
    }
}

fn get(random: &mut Random, keys: &[Vec<u8>], rows: &[Row]) -> Call {
    let key = match random.below(8) {
        0 => draw::letters(random, 0, 3),
        _ => random.pick(keys).clone(),
    };
    let seqno = draw::around(random, rows);
    Call::Get { key, seqno }
}

fn letter(call: &Call) -> u8 {
    match call {
        Call::Insert(_) => b'I',
        Call::Get { .. } => b'G',
        Call::All => b'A',
        Call::Highest => b'H',
        Call::Flag => b'R',
        Call::Flagged => b'Q',
        Call::Id => b'D',
        Call::Size | Call::Len => unreachable!("the size is no part of the comparison"),
    }
}

fn asked(case: Case, call: &Call) -> Case {
    match call {
        Call::Insert(row) => version(case.bytes(&row.key), row),
        Call::Get { key, seqno } => case.bytes(key).number(*seqno),
        _ => case,
    }
}

fn told(case: Case, answer: &Answer) -> Case {
    match answer {
        Answer::Inserted(..) | Answer::Done => case,
        Answer::Found(None) => case.number(0).number(0).number(0).number(0).bytes(&[]),
        Answer::Found(Some((number, row))) => version(case.number(1).number(*number as u64), row),
        Answer::All(rows) => case.bytes(&form::list(rows)),
        Answer::Highest(highest) => case
            .number(u64::from(highest.is_some()))
            .number(highest.unwrap_or(0)),
        Answer::Flagged(flagged) => case.number(u64::from(*flagged)),
        Answer::Number(number) => case.number(*number),
    }
}

fn version(case: Case, row: &Row) -> Case {
    case.number(row.seqno)
        .number(u64::from(u8::from(row.tag)))
        .bytes(&row.value)
}
