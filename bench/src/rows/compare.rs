//! Comparing two keys of one length.

use super::{same, Made, Pair, Row, Section};
use crate::lists::Shape;
use crate::measure::{steady, Side};
use crate::ours;
use crate::words::grouped;
use oracle::random::Random;
use std::cmp::Ordering;
use std::ffi::c_int;
use std::hint::black_box;

pub static COMPARE: Section = Section {
    title: "Comparing two keys, beside C's memcmp",
    name: "compare",
    other: "memcmp",
    unit: "call",
    rate: false,
};

extern "C" {
    fn memcmp(a: *const u8, b: *const u8, length: usize) -> c_int;
}

/// Where two keys part.
const PLACES: [(&str, fn(usize) -> Option<usize>); 4] = [
    ("the first byte differs", |_| Some(0)),
    ("the middle byte differs", |length| Some(length / 2)),
    ("the last byte differs", |length| Some(length - 1)),
    (SAME, |_| None),
];

pub const SAME: &str = "all the same";

/// So many pairs of keys are compared in turn, each at an address of its own.
const PAIRS: usize = 4;

pub fn rows() -> Vec<Row> {
    let mut rows = Vec::new();
    for length in [12, 76, 200, 212, 4_096] {
        for (told, place) in PLACES {
            let label = format!("{} bytes, {told}", grouped(length));
            let make = move |random: &mut Random| beside_memcmp(length, place(length), random);
            let shape = Shape::plain(PAIRS, length);
            rows.push(Row::new(&COMPARE, label, (shape, 1), make));
        }
    }
    rows
}

fn beside_memcmp(length: usize, place: Option<usize>, random: &mut Random) -> Made {
    let keys = KeyPairs::new(length, place, random);
    for (a, b) in keys.iter() {
        same("the order", &ours::compare_keys(a, b), &by_memcmp(a, b))?;
    }
    Ok(Pair {
        units: PAIRS,
        bytes: PAIRS * length,
        ours: keys.clone().timed(ours::compare_keys),
        theirs: keys.timed(by_memcmp),
    })
}

/// The keys have one length, so it decides nothing.
#[inline]
fn by_memcmp(a: &[u8], b: &[u8]) -> Ordering {
    // SAFETY: both keys have so many bytes.
    unsafe { memcmp(a.as_ptr(), b.as_ptr(), a.len()) }.cmp(&0)
}

/// Keys in one room, each with where it starts.
#[derive(Clone)]
struct KeyPairs {
    bytes: Vec<u8>,
    length: usize,
    starts: Vec<(usize, usize)>,
}

impl KeyPairs {
    fn new(length: usize, place: Option<usize>, random: &mut Random) -> Self {
        let key: Vec<u8> = (0..length).map(|_| random.next() as u8).collect();
        let (mut bytes, mut starts) = (Vec::new(), Vec::new());
        let mut put = |key: &[u8], random: &mut Random| {
            bytes.resize(bytes.len() + random.below(16), 0);
            bytes.extend_from_slice(key);
            bytes.len() - length
        };
        for _ in 0..PAIRS {
            let mut other = key.clone();
            if let Some(place) = place {
                other[place] ^= 1 << random.below(8);
            }
            starts.push((put(&key, random), put(&other, random)));
        }
        Self {
            bytes,
            length,
            starts,
        }
    }

    fn iter(&self) -> impl Iterator<Item = (&[u8], &[u8])> {
        let key = |start: usize| &self.bytes[start..][..self.length];
        self.starts.iter().map(move |&(a, b)| (key(a), key(b)))
    }

    fn timed(self, compare: impl Fn(&[u8], &[u8]) -> Ordering + 'static) -> Side {
        steady(move || {
            for (a, b) in self.iter() {
                black_box(compare(black_box(a), black_box(b)));
            }
        })
    }
}
