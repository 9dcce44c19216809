//! The paper's rules in their plainest form, held against the Rust on random
//! inputs within the domain of the comparison.

#[path = "../src/bin/record/draw.rs"]
mod draw;

use draw::place;
use oracle::engine::compact::{compact, Rule, Verdict};
use oracle::engine::memtable::{answers, Answer, Call};
use oracle::engine::read::{open, open_run, steps, Bounds, Kind, List, Place};
use oracle::engine::{prefix, Row};
use oracle::random::Random;
use oracle::ValueType;
use std::collections::VecDeque;
use std::ops::Bound;

const CASES: usize = 100_000;

fn zeroed(mut row: Row, rule: &Rule) -> Row {
    if rule.zero && row.seqno < rule.threshold {
        row.seqno = 0;
    }
    row
}

/// What compaction does to one key's versions, newest first.
fn compact_key(rows: &[(usize, Row)], rule: &Rule, out: &mut Vec<(usize, Row)>) -> Vec<usize> {
    let expired = |(_, row): &(usize, Row)| row.seqno < rule.threshold;
    let tail = (1..rows.len()).find(|at| expired(&rows[*at]));
    let head = tail.unwrap_or(rows.len()) - 1;
    let kind = rows[head].1.tag;
    let gone = match tail {
        None => rule.evict && kind.is_tombstone(),
        Some(tail) => {
            let weak_before_value =
                kind == ValueType::WeakTombstone && rows[tail].1.tag == ValueType::Value;
            rule.evict && kind == ValueType::Tombstone || weak_before_value
        }
    };
    for (number, row) in &rows[..head + usize::from(!gone)] {
        out.push((*number, zeroed(row.clone(), rule)));
    }
    let tail = tail.unwrap_or(rows.len());
    rows[tail..].iter().map(|(number, _)| *number).collect()
}

fn compact_list(rows: &[Row], rule: &Rule) -> (Vec<(usize, Row)>, Vec<usize>) {
    let numbered: Vec<_> = rows.iter().cloned().enumerate().collect();
    let (mut kept, mut dropped) = (Vec::new(), Vec::new());
    for versions in numbered.chunk_by(|left, right| left.1.key == right.1.key) {
        dropped.extend(compact_key(versions, rule, &mut kept));
    }
    (kept, dropped)
}

fn above(lower: &Bound<Vec<u8>>, key: &[u8]) -> bool {
    match lower {
        Bound::Included(bound) => **bound <= *key,
        Bound::Excluded(bound) => **bound < *key,
        Bound::Unbounded => true,
    }
}

fn below(upper: &Bound<Vec<u8>>, key: &[u8]) -> bool {
    match upper {
        Bound::Included(bound) => *key <= **bound,
        Bound::Excluded(bound) => *key < **bound,
        Bound::Unbounded => true,
    }
}

/// All versions within the bounds, in order, with their places.
fn versions<'a>(lists: &'a [List], bounds: &Bounds) -> Vec<(&'a Row, Place)> {
    let mut all = Vec::new();
    for (at, list) in lists.iter().enumerate() {
        let numbered = list.rows.iter().enumerate();
        all.extend(numbered.map(|(number, row)| (row, (at, number))));
    }
    all.retain(|(row, _)| above(&bounds.lower, &row.key) && below(&bounds.upper, &row.key));
    all.sort_by(|left, right| place(left.0).cmp(&place(right.0)));
    all
}

/// What lies at or above a list's snapshot is removed; the first of each key
/// answers; tombstones vanish.
fn entries(lists: &[List], bounds: &Bounds, snapshot: u64) -> VecDeque<Place> {
    let snapshot_of = |(list, _): Place| match lists[list].kind {
        Kind::Ephemeral(own) => own,
        _ => snapshot,
    };
    let mut all = versions(lists, bounds);
    all.retain(|(row, place)| row.seqno < snapshot_of(*place));
    all.dedup_by(|later, earlier| later.0.key == earlier.0.key);
    let live = all.iter().filter(|(row, _)| !row.tag.is_tombstone());
    live.map(|(_, place)| *place).collect()
}

fn take(mut left: VecDeque<Place>, steps: &[u8]) -> Vec<Option<Place>> {
    let step = |letter: &u8| match letter {
        b'F' => left.pop_front(),
        _ => left.pop_back(),
    };
    steps.iter().map(step).collect()
}

fn random_rows(random: &mut Random) -> Vec<Row> {
    let count = random.within(1, 5);
    let keys = draw::keys(random, count);
    let most = random.within(0, 14);
    draw::in_order((0..most).map(|_| draw::row(random, &keys)).collect())
}

fn random_rule(random: &mut Random, rows: &[Row]) -> Rule {
    Rule {
        threshold: draw::around(random, rows),
        evict: random.one_in(2),
        zero: random.one_in(2),
    }
}

fn random_bound(random: &mut Random, rows: &[Row]) -> Bound<Vec<u8>> {
    let key = match random.below(4) {
        0 => draw::letters(random, 0, 3),
        _ if rows.is_empty() => Vec::new(),
        _ => random.pick(rows).key.clone(),
    };
    match random.below(4) {
        0 => Bound::Included(key),
        1 => Bound::Excluded(key),
        _ => Bound::Unbounded,
    }
}

/// Inverted ones too: here the stand-ins follow the paper.
fn random_bounds(random: &mut Random, rows: &[Row]) -> Bounds {
    Bounds {
        lower: random_bound(random, rows),
        upper: random_bound(random, rows),
    }
}

fn random_steps(random: &mut Random) -> Vec<u8> {
    let count = random.below(9);
    (0..count).map(|_| *random.pick(b"FB")).collect()
}

/// Rows dealt out to lists that are tables or memtables, one of them perhaps
/// with a snapshot of its own.
fn dealt(random: &mut Random, rows: &[Row]) -> Vec<List> {
    let count = random.within(1, 5);
    let mut lists: Vec<List> = (0..count)
        .map(|_| List {
            kind: *random.pick(&[Kind::Table, Kind::Memtable]),
            rows: Vec::new(),
        })
        .collect();
    if random.one_in(4) {
        lists[random.below(count)].kind = Kind::Ephemeral(draw::around(random, rows));
    }
    for row in rows {
        lists[random.below(count)].rows.push(row.clone());
    }
    lists
}

/// Rows cut between keys into the tables of one run, none of them empty.
fn run_of(random: &mut Random, rows: &[Row]) -> Vec<List> {
    let mut lists: Vec<List> = Vec::new();
    for versions in rows.chunk_by(|left, right| left.key == right.key) {
        match lists.last_mut() {
            Some(list) if random.one_in(2) => list.rows.extend_from_slice(versions),
            _ => lists.push(List {
                kind: Kind::RunTable,
                rows: versions.to_vec(),
            }),
        }
    }
    lists
}

#[test]
fn compaction() {
    let mut random = Random::new(1);
    for _ in 0..CASES {
        let rows = random_rows(&mut random);
        let rule = random_rule(&mut random, &rows);
        let done = compact(&rows, &rule, None);
        assert_eq!((done.kept, done.dropped), compact_list(&rows, &rule));
    }
}

#[test]
fn a_filter_that_keeps_all_is_none() {
    let mut random = Random::new(2);
    for _ in 0..CASES / 10 {
        let rows = random_rows(&mut random);
        let rule = random_rule(&mut random, &rows);
        let verdicts: Vec<_> = rows.iter().map(|_| Verdict::Keep).collect();
        let (plain, asked) = (
            compact(&rows, &rule, None),
            compact(&rows, &rule, Some(&verdicts)),
        );
        assert_eq!((plain.kept, plain.dropped), (asked.kept, asked.dropped));
    }
}

/// What compaction does to one key's versions under verdicts.
fn filter_key(
    rows: &[(usize, Row)],
    rule: &Rule,
    verdicts: &[Verdict],
    out: &mut Vec<(usize, Row)>,
) -> Vec<usize> {
    let [(number, head), older @ ..] = rows else {
        return Vec::new();
    };
    let mut head = head.clone();
    let mut reported = Vec::new();
    match &verdicts[*number] {
        _ if head.tag.is_tombstone() => (),
        Verdict::Keep => (),
        Verdict::Drop => {
            reported.push(*number);
            reported.extend(filter_key(older, rule, verdicts, out));
            return reported;
        }
        Verdict::Replace(tag, value) => {
            reported.push(*number);
            (head.tag, head.value) = (*tag, value.clone());
        }
    }
    let stays = |(_, next): &(usize, Row)| next.seqno >= rule.threshold;
    if older.first().is_some_and(stays) {
        out.push((*number, zeroed(head, rule)));
        reported.extend(filter_key(older, rule, verdicts, out));
    } else {
        let versions = [&[(*number, head)], older].concat();
        reported.extend(compact_key(&versions, rule, out));
    }
    reported
}

fn random_verdict(random: &mut Random) -> Verdict {
    match random.below(3) {
        0 => Verdict::Keep,
        1 => Verdict::Drop,
        _ => Verdict::Replace(*random.pick(&draw::TAGS), draw::letters(random, 0, 2)),
    }
}

#[test]
fn filtered_compaction() {
    let mut random = Random::new(8);
    for _ in 0..CASES {
        let rows = random_rows(&mut random);
        let rule = random_rule(&mut random, &rows);
        let verdicts: Vec<_> = rows.iter().map(|_| random_verdict(&mut random)).collect();
        let numbered: Vec<_> = rows.iter().cloned().enumerate().collect();
        let (mut kept, mut reported) = (Vec::new(), Vec::new());
        for versions in numbered.chunk_by(|left, right| left.1.key == right.1.key) {
            reported.extend(filter_key(versions, &rule, &verdicts, &mut kept));
        }
        let done = compact(&rows, &rule, Some(&verdicts));
        assert_eq!((done.kept, done.dropped), (kept, reported));
    }
}

fn reads(seed: u64, make: fn(&mut Random, &[Row]) -> Vec<List>) {
    let mut random = Random::new(seed);
    for _ in 0..CASES {
        let rows = random_rows(&mut random);
        let lists = make(&mut random, &rows);
        let bounds = random_bounds(&mut random, &rows);
        let snapshot = draw::around(&mut random, &rows);
        let asked = random_steps(&mut random);
        let found = steps(&mut open(&lists, &bounds, snapshot), &asked);
        assert_eq!(found, take(entries(&lists, &bounds, snapshot), &asked));
    }
}

#[test]
fn reading() {
    reads(3, dealt);
}

#[test]
fn reading_runs() {
    reads(4, run_of);
}

#[test]
fn a_run_is_its_records_as_one_list() {
    let mut random = Random::new(5);
    for _ in 0..CASES {
        let rows = random_rows(&mut random);
        let lists = run_of(&mut random, &rows);
        if lists.is_empty() {
            continue;
        }
        let bounds = random_bounds(&mut random, &rows);
        let asked = random_steps(&mut random);
        let found = match open_run(&lists, &bounds) {
            Some(mut reader) => steps(&mut reader, &asked),
            None => vec![None; asked.len()],
        };
        let all = versions(&lists, &bounds);
        let places = all.iter().map(|(_, place)| *place).collect();
        assert_eq!(found, take(places, &asked));
    }
}

fn shuffle<T>(random: &mut Random, all: &mut [T]) {
    for at in (1..all.len()).rev() {
        all.swap(at, random.below(at + 1));
    }
}

fn random_key(random: &mut Random, rows: &[Row]) -> Vec<u8> {
    if rows.is_empty() || random.one_in(8) {
        return draw::letters(random, 0, 3);
    }
    random.pick(rows).key.clone()
}

#[test]
fn memtable() {
    let mut random = Random::new(6);
    for _ in 0..CASES {
        let rows = random_rows(&mut random);
        let key = random_key(&mut random, &rows);
        let seqno = draw::around(&mut random, &rows);
        let right = |row: &Row| row.key == key && row.seqno < seqno;
        let first = rows.iter().position(right);
        let mut calls: Vec<_> = rows.iter().cloned().map(Call::Insert).collect();
        shuffle(&mut random, &mut calls);
        let key = key.clone();
        calls.extend([Call::Get { key, seqno }, Call::Highest, Call::All]);
        let told = answers(0, &calls);
        let [.., Answer::Found(found), Answer::Highest(highest), Answer::All(all)] = &told[..]
        else {
            panic!("answers of another kind");
        };
        assert_eq!(*found, first.map(|at| (at, rows[at].clone())));
        assert_eq!(*highest, rows.iter().map(|row| row.seqno).max());
        assert_eq!(*all, rows);
    }
}

#[test]
fn prefixes() {
    let mut random = Random::new(7);
    for _ in 0..CASES {
        let prefix = draw::letters(&mut random, 0, 3);
        let key = draw::letters(&mut random, 1, 4);
        let bounds = prefix::bounds(&prefix);
        let within = above(&bounds.lower, &key) && below(&bounds.upper, &key);
        assert_eq!(within, key.starts_with(&prefix));
    }
}
