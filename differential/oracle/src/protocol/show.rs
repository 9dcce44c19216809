//! Plain data, turned into the words of an answer.

use crate::engine::compact::Compacted;
use crate::engine::memtable::Answer;
use crate::engine::read::Place;
use crate::engine::Row;
use crate::ValueType;
use std::fmt::Write;
use std::ops::Bound;

const DIGITS: &[u8; 16] = b"0123456789abcdef";

pub fn letter(tag: ValueType) -> char {
    match tag {
        ValueType::Value => 'V',
        ValueType::Tombstone => 'T',
        ValueType::WeakTombstone => 'W',
        ValueType::Indirection => 'I',
    }
}

pub fn bound(bound: &Bound<Vec<u8>>) -> String {
    match bound {
        Bound::Unbounded => "-".to_string(),
        Bound::Included(key) => format!("i:{}", hex(key)),
        Bound::Excluded(key) => format!("x:{}", hex(key)),
    }
}

pub fn compacted(done: &Compacted) -> String {
    let mut text = "ok".to_string();
    for (number, row) in &done.kept {
        add(&mut text, format_args!(" {number}:{}", record(row)));
    }
    text.push_str(" |");
    for number in &done.dropped {
        add(&mut text, format_args!(" {number}"));
    }
    text
}

pub fn places(places: &[Option<Place>]) -> String {
    let mut text = "ok".to_string();
    for place in places {
        match place {
            Some((list, record)) => add(&mut text, format_args!(" {list}.{record}")),
            None => text.push_str(" -"),
        }
    }
    text
}

pub fn answers(answers: &[Answer]) -> String {
    let mut text = "ok".to_string();
    for answer in answers {
        text.push(' ');
        text.push_str(&word(answer));
    }
    text
}

fn word(answer: &Answer) -> String {
    match answer {
        Answer::Inserted(share, total) => format!("{share}/{total}"),
        Answer::Found(None) | Answer::Highest(None) => "-".to_string(),
        Answer::Found(Some((number, row))) => format!("{number}:{}", record(row)),
        Answer::All(rows) if rows.is_empty() => "-".to_string(),
        Answer::All(rows) => rows.iter().map(record).collect::<Vec<_>>().join(","),
        Answer::Number(number) | Answer::Highest(Some(number)) => number.to_string(),
        Answer::Done => "done".to_string(),
        Answer::Flagged(true) => "yes".to_string(),
        Answer::Flagged(false) => "no".to_string(),
    }
}

fn record(row: &Row) -> String {
    let mut text = hex(&row.key);
    add(&mut text, format_args!("@{}{}", row.seqno, letter(row.tag)));
    if !row.value.is_empty() {
        text.push('=');
        text.push_str(&hex(&row.value));
    }
    text
}

fn hex(bytes: &[u8]) -> String {
    let digit = |half: u8| char::from(DIGITS[usize::from(half)]);
    bytes
        .iter()
        .flat_map(|byte| [digit(byte / 16), digit(byte % 16)])
        .collect()
}

fn add(text: &mut String, words: std::fmt::Arguments<'_>) {
    text.write_fmt(words).expect("a string takes all");
}
