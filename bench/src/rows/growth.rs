//! The same work over more and more records.

use super::compaction::{self, Keep};
use super::read::{Ends, Taken, Whole};
use super::{check, memtable, Made, Row, Section};
use crate::lists::Shape;
use crate::words::grouped;
use oracle::random::Random;

pub static GROWTH: Section = Section {
    title: "Growth with the number of records",
    name: "growth",
    other: "Rust",
    unit: "record",
    rate: false,
};

/// One line of the plot.
struct Series {
    name: &'static str,
    shape: fn(usize) -> Shape,
    sizes: &'static [usize],
    make: fn(Shape, &mut Random) -> Made,
}

/// A list of at most a mebibyte has room for no more than 24,385 records of 12-byte keys and 16-byte values.
const IN_A_LIST: &[usize] = &[100, 1_000, 10_000, 24_000];
const IN_A_BUNDLE: &[usize] = &[100, 1_000, 10_000, 60_000];
const IN_A_MEMTABLE: &[usize] = &[100, 1_000, 10_000];

#[rustfmt::skip]
const ALL: [Series; 9] = [
    Series { name: "check", shape: usual, sizes: IN_A_LIST, make: check::beside_records },
    Series { name: "compaction", shape: versions, sizes: IN_A_LIST, make: half_kept },
    Series { name: "read 1 list", shape: usual, sizes: IN_A_LIST, make: read::<1> },
    Series { name: "read 4 lists", shape: usual, sizes: IN_A_BUNDLE, make: read::<4> },
    Series { name: "read 16 lists", shape: usual, sizes: IN_A_BUNDLE, make: read::<16> },
    Series { name: "check, short records", shape: short, sizes: IN_A_BUNDLE, make: check::beside_records },
    Series { name: "compaction, short records", shape: short_versions, sizes: IN_A_BUNDLE, make: half_kept },
    Series { name: "read 1 list, short records", shape: short, sizes: IN_A_BUNDLE, make: read::<1> },
    Series { name: MEMTABLE, shape: usual, sizes: IN_A_MEMTABLE, make: memtable::build },
];

/// The one series that may grow faster than its records.
pub const MEMTABLE: &str = "memtable build";

pub fn rows() -> Vec<Row> {
    ALL.iter().flat_map(series_rows).collect()
}

fn series_rows(series: &Series) -> Vec<Row> {
    let Series { name, make, .. } = *series;
    let row = |&records: &usize| {
        let shape = (series.shape)(records);
        let label = format!("{name}, {} records", grouped(records));
        let make = move |random: &mut Random| make(shape, random);
        Row {
            series: Some(name),
            ..Row::new(&GROWTH, label, (shape, 1), make)
        }
    };
    series.sizes.iter().map(row).collect()
}

fn usual(records: usize) -> Shape {
    Shape::plain(records, 12)
}

fn versions(records: usize) -> Shape {
    usual(records).versions(10)
}

/// Keys of 2 bytes and no values: 60,000 records fit in a list.
fn short(records: usize) -> Shape {
    Shape {
        value: 0,
        ..Shape::plain(records, 2)
    }
}

fn short_versions(records: usize) -> Shape {
    short(records).versions(10)
}

fn half_kept(shape: Shape, random: &mut Random) -> Made {
    compaction::whole(shape, Keep::Half, random)
}

fn read<const LISTS: usize>(shape: Shape, random: &mut Random) -> Made {
    let read = Whole {
        shape,
        lists: LISTS,
        ends: Ends::Front,
        taken: Taken::Place,
    };
    read.make(random)
}
