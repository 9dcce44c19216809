//! A memtable: filling it in random order, and looking keys up.

use super::{same, Made, Pair, Row, Section};
use crate::lists::{draw, encode, Shape};
use crate::measure::{fresh, steady};
use crate::ours::Memtable;
use crate::theirs;
use oracle::engine;
use oracle::random::Random;
use std::hint::black_box;

static MEMTABLE: Section = Section {
    title: "Memtable of 1,000 records",
    name: "memtable",
    other: "Rust",
    unit: "call",
    rate: false,
};

type Make = fn(Shape, &mut Random) -> Made;

pub fn rows() -> Vec<Row> {
    let calls: [(&str, Make); 2] = [("1,000 inserts", build), ("1,000 gets", get)];
    let mut rows = Vec::new();
    for (told, make) in calls {
        for key in [12, 212] {
            let shape = Shape::plain(1_000, key);
            let label = format!("{told}, keys of {key} bytes");
            let make = move |random: &mut Random| make(shape, random);
            rows.push(Row::new(&MEMTABLE, label, (shape, 1), make));
        }
    }
    rows
}

/// Fills an empty table.
pub fn build(shape: Shape, random: &mut Random) -> Made {
    let inputs = Inputs::new(shape, random);
    inputs.compare()?;
    let Inputs { rows, list } = inputs;
    let mut ours = Memtable::new(vec![0; list.len()]);
    let copy = rows.clone();
    Ok(Pair {
        units: rows.len(),
        bytes: list.len(),
        ours: steady(move || ours.fill(&rows)),
        theirs: fresh(|| (), move |()| theirs::memtable(&copy)),
    })
}

/// Looks every key up, each in its newest version.
fn get(shape: Shape, random: &mut Random) -> Made {
    let inputs = Inputs::new(shape, random);
    inputs.compare()?;
    let Inputs { rows, list } = inputs;
    let mut ours = Memtable::new(vec![0; list.len()]);
    ours.fill(&rows);
    let theirs = theirs::memtable(&rows);
    let keys: Vec<Vec<u8>> = rows.into_iter().map(|row| row.key).collect();
    for key in &keys {
        let found = theirs.get(key, u64::MAX);
        let found = found.as_ref().map(|item| (item.key.seqno, &*item.value));
        same("what a key has", &ours.get(key, u64::MAX), &found)?;
    }
    let copy = keys.clone();
    Ok(Pair {
        units: keys.len(),
        bytes: list.len(),
        ours: steady(move || for_all(&keys, |key| _ = black_box(ours.get(key, u64::MAX)))),
        theirs: steady(move || for_all(&copy, |key| _ = black_box(theirs.get(key, u64::MAX)))),
    })
}

fn for_all(keys: &[Vec<u8>], get: impl Fn(&[u8])) {
    keys.iter().for_each(|key| get(key));
}

struct Inputs {
    /// In random order.
    rows: Vec<engine::Row>,
    /// The bytes of the list of them all.
    list: Vec<u8>,
}

impl Inputs {
    fn new(shape: Shape, random: &mut Random) -> Self {
        let mut rows = draw(shape, random);
        let list = encode(&rows);
        random.shuffle(&mut rows);
        Self { rows, list }
    }

    /// Both tables are the list, once filled.
    fn compare(&self) -> Result<(), String> {
        let mut ours = Memtable::new(vec![0; self.list.len()]);
        ours.fill(&self.rows);
        let theirs = theirs::image(&theirs::memtable(&self.rows));
        same("the filled table", &ours.image(), &&*theirs)?;
        same("the list", &theirs, &self.list)
    }
}
