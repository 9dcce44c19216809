//! Reads over several lists, with bounds, snapshots and both ends.

use crate::draw;
use crate::form::{self, Case};
use oracle::engine::read::{open, steps, Bounds, Kind, List, Place};
use oracle::engine::Row;
use oracle::random::Random;
use std::ops::Bound;

const SEED: u64 = 0x5245_4144_5354_4550;
const CASES: usize = 2200;
const MOST_LISTS: usize = 16;
const LATE: u64 = 1 << 40;
const ALL: Bounds = Bounds {
    lower: Bound::Unbounded,
    upper: Bound::Unbounded,
};

pub fn cases() -> Vec<Case> {
    let mut random = Random::new(SEED);
    (0..CASES).map(|number| case(&mut random, number)).collect()
}

fn case(random: &mut Random, number: usize) -> Case {
    let count = if large(number) {
        30
    } else {
        random.within(1, 10)
    };
    let keys = draw::keys(random, count);
    let lists = lists(random, &keys, number);
    let all: Vec<Row> = lists.iter().flatten().cloned().collect();
    // Every third read sees nearly all, so that long mixes of steps find entries.
    let (bounds, snapshot) = match number % 3 {
        0 => (ALL, LATE),
        _ => (bounds(random, &keys), snapshot(random, &all)),
    };
    let asked = step_letters(random, count);
    let places = agreed(random, &lists, &bounds, snapshot, &asked);
    let bundle: Vec<Vec<u8>> = lists.iter().map(form::list).collect();
    Case::new()
        .bytes(&bundle.concat())
        .bytes(&form::table(bundle.iter().map(Vec::len)))
        .bound(&bounds.lower)
        .bound(&bounds.upper)
        .number(snapshot)
        .bytes(&asked)
        .bytes(&form::answers(&places))
}

/// No key and seqno stands in two lists.
fn lists(random: &mut Random, keys: &[Vec<u8>], number: usize) -> Vec<Vec<Row>> {
    let count = list_count(random, number);
    let most = match keys[0].len() {
        ..100 if large(number) => 120,
        ..100 => random.within(2, 18),
        _ => 6,
    };
    let rows = (0..most).map(|_| draw::row(random, keys)).collect();
    let mut lists = vec![Vec::new(); count];
    for row in draw::in_order(rows) {
        lists[random.below(count)].push(row);
    }
    lists
}

/// One in a hundred has many keys and records.
fn large(number: usize) -> bool {
    number % 100 == 0
}

/// Every count comes, the small ones more often.
fn list_count(random: &mut Random, number: usize) -> usize {
    if number % 4 == 0 {
        return number / 4 % MOST_LISTS + 1;
    }
    random.within(1, 4)
}

/// Half of them above the common seqnos, the others at and around one.
fn snapshot(random: &mut Random, rows: &[Row]) -> u64 {
    match random.below(6) {
        0 => u64::MAX,
        1 | 2 => random.within(9, 12) as u64,
        _ => draw::around(random, rows),
    }
}

/// The lower bound is never above the upper. Wide intervals come more often.
fn bounds(random: &mut Random, keys: &[Vec<u8>]) -> Bounds {
    let mut ends = vec![near(random, keys), near(random, keys)];
    if random.one_in(2) {
        ends.extend([near(random, keys), near(random, keys)]);
    }
    ends.sort();
    let (upper, lower) = (ends.pop(), ends.swap_remove(0));
    Bounds {
        lower: bound(random, lower),
        upper: bound(random, upper.unwrap_or_default()),
    }
}

fn bound(random: &mut Random, key: Vec<u8>) -> Bound<Vec<u8>> {
    match random.below(7) {
        0 | 1 => Bound::Included(key),
        2 | 3 => Bound::Excluded(key),
        _ => Bound::Unbounded,
    }
}

/// A key, its neighbour, a start of it, the empty key, or another.
fn near(random: &mut Random, keys: &[Vec<u8>]) -> Vec<u8> {
    let mut key = random.pick(keys).clone();
    match random.below(10) {
        0 => key.push(0),
        1 => key.truncate(random.below(key.len() + 1)),
        2 => key.clear(),
        3 => key = draw::letters(random, 1, 3),
        _ => (),
    }
    key
}

/// A few more steps than entries, so that the end is met.
fn step_letters(random: &mut Random, keys: usize) -> Vec<u8> {
    let count = random.below(keys + 4);
    let habit = random.below(5);
    (0..count)
        .map(|number| match habit {
            0 => b'F',
            1 => b'B',
            2 if number % 2 == 0 => b'F',
            2 => b'B',
            _ => *random.pick(b"FB"),
        })
        .collect()
}

/// The answer, the same whatever the Rust holds the lists as.
fn agreed(
    random: &mut Random,
    lists: &[Vec<Row>],
    bounds: &Bounds,
    snapshot: u64,
    asked: &[u8],
) -> Vec<Option<Place>> {
    let mixed: Vec<Kind> = lists
        .iter()
        .map(|_| *random.pick(&[Kind::Table, Kind::Memtable]))
        .collect();
    let answer = |kind: &dyn Fn(usize) -> Kind| {
        let lists: Vec<List> = lists
            .iter()
            .enumerate()
            .map(|(at, rows)| List {
                kind: kind(at),
                rows: rows.clone(),
            })
            .collect();
        steps(&mut open(&lists, bounds, snapshot), asked)
    };
    let tables = answer(&|_| Kind::Table);
    assert_eq!(tables, answer(&|_| Kind::Memtable), "memtables differ");
    assert_eq!(tables, answer(&|at| mixed[at]), "a mixture differs");
    tables
}
