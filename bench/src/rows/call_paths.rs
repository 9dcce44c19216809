//! Checking, opening, compacting and reading with a program's call paths as keys, as a profiler has them.

use super::compaction::{self, KEEPS};
use super::read::{Ends, Taken, Whole};
use super::{check, lists_text, open, Made, Row, Section};
use crate::lists::Shape;
use oracle::random::Random;

static CALL_PATHS: Section = Section {
    title: "Recorded call paths, beside the Rust as below",
    name: "call paths",
    other: "Rust",
    unit: "record",
    rate: true,
};

const LISTS: [usize; 3] = [1, 4, 16];

pub fn rows() -> Vec<Row> {
    let shape = Shape::recorded();
    let mut rows = vec![row("check".to_string(), (shape, 1), move |random| {
        check::beside_records(shape, random)
    })];
    for lists in LISTS {
        let label = format!("open, {}", lists_text(lists));
        rows.push(row(label, (shape, lists), move |random| {
            open::whole(shape, lists, random)
        }));
    }
    for (told, keep) in KEEPS {
        let shape = shape.versions(10);
        let label = format!("compact, {told}");
        rows.push(row(label, (shape, 1), move |random| {
            compaction::whole(shape, keep, random)
        }));
    }
    for lists in LISTS {
        let read = Whole {
            shape,
            lists,
            ends: Ends::Front,
            taken: Taken::Place,
        };
        let label = format!("read, {}, front to back", lists_text(lists));
        rows.push(row(label, (shape, lists), move |random| read.make(random)));
    }
    rows
}

fn row(label: String, of: (Shape, usize), make: impl Fn(&mut Random) -> Made + 'static) -> Row {
    Row::new(&CALL_PATHS, label, of, make)
}
