//! Opening a bundle: what is done once before reads.

use super::{lists_text, same, Made, Pair, Row, Section};
use crate::lists::{draw, encode, spread, Shape};
use crate::measure::{fresh, steady};
use crate::ours::Bundle;
use crate::theirs;
use oracle::random::Random;
use oracle::InternalValue;
use std::hint::black_box;

static OPEN: Section = Section {
    title: "Opening a bundle, beside decoding its lists into the Rust's records in memory",
    name: "open",
    other: "Rust",
    unit: "record",
    rate: true,
};

pub fn rows() -> Vec<Row> {
    let mut rows = Vec::new();
    for key in [12, 212] {
        for lists in [1, 4, 16] {
            let shape = Shape::plain(4_000, key);
            let label = format!("keys of {key} bytes, {}", lists_text(lists));
            let make = move |random: &mut Random| whole(shape, lists, random);
            rows.push(Row::new(&OPEN, label, (shape, lists), make));
        }
    }
    rows
}

pub fn whole(shape: Shape, lists: usize, random: &mut Random) -> Made {
    let rows = spread(&draw(shape, random), lists, random);
    let lists: Vec<Vec<u8>> = rows.iter().map(|rows| encode(rows)).collect();
    let mut bundle = Bundle::new(&lists, shape.records);
    compare(&mut bundle, &opened(&lists)?)?;
    Ok(Pair {
        units: shape.records,
        bytes: lists.iter().map(Vec::len).sum(),
        ours: steady(move || bundle.open()),
        theirs: fresh(|| (), move |()| opened(black_box(&lists))),
    })
}

/// The Rust's records of each list.
fn opened(lists: &[Vec<u8>]) -> Result<Vec<Vec<InternalValue>>, String> {
    let opened = lists.iter().map(|list| theirs::open(list));
    let opened: Option<Vec<_>> = opened.collect();
    opened.ok_or_else(|| "the Rust finds no list".to_string())
}

/// The count is the Rust's, and so are keys and values through the index.
fn compare(bundle: &mut Bundle, opened: &[Vec<InternalValue>]) -> Result<(), String> {
    let count: usize = opened.iter().map(Vec::len).sum();
    same("the count", &bundle.open(), &(count as u64))?;
    for (list, items) in opened.iter().enumerate() {
        for (record, item) in items.iter().enumerate() {
            let place = (list, record);
            same("a key", &bundle.key(place), &&*item.key.user_key)?;
            same("a value", &bundle.value(place), &&*item.value)?;
        }
    }
    Ok(())
}
