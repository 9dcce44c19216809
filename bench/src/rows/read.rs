//! Whole reads over everything in a bundle.

use super::{lists_text, same, Made, Pair, Row, Section};
use crate::lists::{draw, encode, spread, Shape};
use crate::measure::{steady, Side};
use crate::ours::Bundle;
use crate::theirs::{held, EVERYTHING};
use oracle::engine;
use oracle::engine::read::{Held, Place};
use oracle::random::Random;
use oracle::InternalValue;
use std::hint::black_box;

pub static ONE: Section = Section {
    title: "Reading, each key in one list only",
    name: "read",
    other: "Rust",
    unit: "entry",
    rate: false,
};

pub static SEVERAL: Section = Section {
    title: "Reading, four versions of each key anywhere in the lists",
    name: "read versions",
    other: "Rust",
    unit: "entry",
    rate: false,
};

static TAKEN: Section = Section {
    title: "Reading, each key in one list only, with vls_key and vls_value of each entry",
    name: "read and take",
    other: "Rust",
    unit: "entry",
    rate: false,
};

static RECORDS: Section = Section {
    title: "Reading, each key in one list only, with vls_record of each entry",
    name: "read and take records",
    other: "Rust",
    unit: "entry",
    rate: false,
};

/// What is taken of each entry.
#[derive(Clone, Copy, PartialEq, Eq)]
pub enum Taken {
    Place,
    KeyAndValue,
    Record,
}

/// From which end a read takes its steps.
#[derive(Clone, Copy, PartialEq, Eq)]
pub enum Ends {
    Front,
    Back,
    Alternating,
}

impl Ends {
    fn front(self, step: usize) -> bool {
        match self {
            Self::Front => true,
            Self::Back => false,
            Self::Alternating => step % 2 == 0,
        }
    }
}

const ENDS: [(&str, Ends); 3] = [
    ("front to back", Ends::Front),
    ("back to front", Ends::Back),
    ("alternating", Ends::Alternating),
];

/// A read of everything.
#[derive(Clone, Copy)]
pub struct Whole {
    pub shape: Shape,
    pub lists: usize,
    pub ends: Ends,
    pub taken: Taken,
}

pub fn rows() -> Vec<Row> {
    let one = |key| Shape::plain(4_000, key);
    let several = |key| Shape::plain(4_000, key).versions(4);
    let mut rows = section_rows(&ONE, one, &ENDS, Taken::Place);
    rows.extend(section_rows(&SEVERAL, several, &ENDS, Taken::Place));
    rows.extend(section_rows(&TAKEN, one, &ENDS[..1], Taken::KeyAndValue));
    rows.extend(section_rows(&RECORDS, one, &ENDS[..1], Taken::Record));
    rows
}

fn section_rows(
    section: &'static Section,
    shape: fn(usize) -> Shape,
    all_ends: &[(&str, Ends)],
    taken: Taken,
) -> Vec<Row> {
    let mut rows = Vec::new();
    for key in [12, 212] {
        for lists in [1, 4, 16] {
            for &(told, ends) in all_ends {
                let shape = shape(key);
                let read = Whole {
                    shape,
                    lists,
                    ends,
                    taken,
                };
                let label = format!("keys of {key} bytes, {}, {told}", lists_text(lists));
                let make = move |random: &mut Random| read.make(random);
                rows.push(Row::new(section, label, (shape, lists), make));
            }
        }
    }
    rows
}

impl Whole {
    pub fn make(self, random: &mut Random) -> Made {
        let rows = spread(&draw(self.shape, random), self.lists, random);
        let lists: Vec<Vec<u8>> = rows.iter().map(|rows| encode(rows)).collect();
        let (bundle, held) = (Bundle::new(&lists, self.shape.records), held(&rows));
        let mut entries = Vec::new();
        read_theirs(&held, self.ends, |item| entries.push(item));
        compare(&bundle, &rows, self.ends, &entries)?;
        Ok(Pair {
            units: entries.len(),
            bytes: lists.iter().map(Vec::len).sum(),
            ours: self.ours(bundle),
            theirs: steady(move || read_theirs(&held, self.ends, |item| _ = black_box(item))),
        })
    }

    fn ours(self, bundle: Bundle) -> Side {
        let ends = self.ends;
        let taken = self.taken;
        steady(move || read_ours(&bundle, ends, |place| take(&bundle, place, taken)))
    }
}

fn read_ours(bundle: &Bundle, ends: Ends, mut entry: impl FnMut(Place)) {
    let mut cursor = bundle.start();
    let mut step = 0;
    while let Some(place) = bundle.step(&mut cursor, ends.front(step)) {
        entry(place);
        step += 1;
    }
}

#[inline]
fn take(bundle: &Bundle, place: Place, taken: Taken) {
    match taken {
        Taken::Place => _ = black_box(place),
        Taken::KeyAndValue => _ = black_box((bundle.key(place), bundle.value(place))),
        Taken::Record => _ = black_box(bundle.record(place)),
    }
}

fn read_theirs(held: &Held, ends: Ends, mut entry: impl FnMut(InternalValue)) {
    let mut left = held.open(&EVERYTHING, u64::MAX);
    let mut step = 0;
    loop {
        let taken = if ends.front(step) {
            left.next()
        } else {
            left.next_back()
        };
        let Some(item) = taken else { return };
        entry(item.expect("no stream here holds an error"));
        step += 1;
    }
}

/// Ours are the same entries, and key and value of each are the record's.
fn compare(
    bundle: &Bundle,
    rows: &[Vec<engine::Row>],
    ends: Ends,
    entries: &[InternalValue],
) -> Result<(), String> {
    let mut ours = Vec::new();
    read_ours(bundle, ends, |place| ours.push(place));
    same("the entries", &ours, &entries.iter().map(place).collect())?;
    for (place, entry) in ours.into_iter().zip(entries) {
        let (list, record) = place;
        same("a key", &bundle.key(place), &&*entry.key.user_key)?;
        same("a value", &bundle.value(place), &&*rows[list][record].value)?;
        let whole = (bundle.key(place), entry.key.seqno, bundle.value(place));
        same("a record", &bundle.record(place), &whole)?;
    }
    Ok(())
}

/// List and record number, which the Rust's records carry as their value here.
fn place(item: &InternalValue) -> Place {
    let number = |at: usize| {
        let bytes = item.value[at..at + 4].try_into().expect("four bytes");
        u32::from_le_bytes(bytes) as usize
    };
    (number(0), number(4))
}
