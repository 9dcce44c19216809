//! Judging one list.

use super::{same, Made, Pair, Row, Section};
use crate::lists::{draw, encode, Shape};
use crate::measure::steady;
use crate::words::grouped;
use crate::{ours, theirs};
use oracle::random::Random;
use std::hint::black_box;

static RECORDS: Section = Section {
    title: "Checking a list, beside decoding it into the Rust's records and comparing neighbours",
    name: "check",
    other: "Rust",
    unit: "record",
    rate: true,
};

static FIELDS: Section = Section {
    title: "Checking a list, beside the same in Rust over the bytes where they lie",
    name: "check in place",
    other: "Rust",
    unit: "record",
    rate: true,
};

pub static COPY: Section = Section {
    title: "Checking a list, beside a plain copy of its bytes",
    name: "check beside a copy",
    other: "copy",
    unit: "record",
    rate: true,
};

type Make = fn(Shape, &mut Random) -> Made;

pub fn rows() -> Vec<Row> {
    let sections: [(&Section, Make); 3] = [
        (&RECORDS, beside_records),
        (&FIELDS, beside_fields),
        (&COPY, beside_copy),
    ];
    let mut rows = Vec::new();
    for (section, make) in sections {
        for (records, key) in [(10_000, 12), (9_799, 76), (4_315, 212)] {
            let shape = Shape::plain(records, key);
            let label = format!("keys of {key} bytes, {} records", grouped(records));
            let make = move |random: &mut Random| make(shape, random);
            rows.push(Row::new(section, label, (shape, 1), make));
        }
    }
    rows
}

pub fn beside_records(shape: Shape, random: &mut Random) -> Made {
    beside_rust(theirs::check, shape, random)
}

fn beside_fields(shape: Shape, random: &mut Random) -> Made {
    beside_rust(theirs::check_in_place, shape, random)
}

fn beside_rust(check: fn(&[u8]) -> Option<u64>, shape: Shape, random: &mut Random) -> Made {
    let list = encode(&draw(shape, random));
    let theirs = list.clone();
    same("the count", &Some(ours::check(&list)), &check(&theirs))?;
    Ok(Pair {
        units: shape.records,
        bytes: list.len(),
        ours: steady(move || ours::check(&list)),
        theirs: steady(move || check(black_box(&theirs))),
    })
}

fn beside_copy(shape: Shape, random: &mut Random) -> Made {
    let list = encode(&draw(shape, random));
    let theirs = list.clone();
    let mut room = vec![0; list.len()];
    same("the count", &ours::check(&list), &(shape.records as u64))?;
    Ok(Pair {
        units: shape.records,
        bytes: list.len(),
        ours: steady(move || ours::check(&list)),
        theirs: steady(move || black_box(&mut room).copy_from_slice(&theirs)),
    })
}
