//! Compactions with a filter: all short lists of one key, and random longer ones,
//! each with verdicts of its own.

use crate::compactions::{asked, one_key_lists, random_rows, random_rule, sampled, told};
use crate::draw::TAGS;
use crate::form::{self, Case};
use oracle::engine::compact::{compact, Rule, Verdict};
use oracle::engine::Row;
use oracle::random::Random;
use std::ops::Range;

const SEED: u64 = 0x4649_4c54_4552_4544;
const RANDOM: usize = 700;
const LARGE: usize = 6;

/// A verdict in the table: what it says, tag, value start and value length.
type Entry = [usize; 4];

pub fn cases() -> Vec<Case> {
    let mut random = Random::new(SEED);
    let mut cases = Vec::new();
    for rows in one_key_lists() {
        for rule in sampled(&mut random) {
            cases.push(case(&mut random, &rows, &rule));
        }
    }
    for _ in 0..RANDOM {
        let most = random.within(1, 14);
        cases.push(random_case(&mut random, 4, most));
    }
    for _ in 0..LARGE {
        cases.push(random_case(&mut random, 40, 120));
    }
    cases
}

fn random_case(random: &mut Random, most_keys: usize, most_rows: usize) -> Case {
    let rows = random_rows(random, most_keys, most_rows);
    let rule = random_rule(random, &rows);
    case(random, &rows, &rule)
}

fn case(random: &mut Random, rows: &[Row], rule: &Rule) -> Case {
    let values = values(random);
    let drawn = rows.iter().map(|_| verdict(random, &values));
    let (verdicts, entries): (Vec<Verdict>, Vec<Entry>) = drawn.unzip();
    let case = asked(rows, rule)
        .bytes(&form::table(entries.concat()))
        .bytes(&values);
    told(case, &compact(rows, rule, Some(&verdicts)))
}

/// So few bytes that replacements share them; now and then none, or more.
fn values(random: &mut Random) -> Vec<u8> {
    let length = match random.below(16) {
        0 => 0,
        1 => 40,
        _ => random.within(1, 6),
    };
    (0..length).map(|_| random.below(256) as u8).collect()
}

/// Tombstones and expired versions get theirs too, though nobody asks for them.
fn verdict(random: &mut Random, values: &[u8]) -> (Verdict, Entry) {
    match random.below(3) {
        0 => (Verdict::Keep, with_any(random, 0)),
        1 => (Verdict::Drop, with_any(random, 1)),
        _ => {
            let (tag, part) = (*random.pick(&TAGS), part(random, values.len()));
            let entry = [2, usize::from(u8::from(tag)), part.start, part.len()];
            (Verdict::Replace(tag, values[part].to_vec()), entry)
        }
    }
}

/// Of keep and drop the other three words may be anything.
fn with_any(random: &mut Random, what: usize) -> Entry {
    let mut any = || random.next() as u32 as usize;
    [what, any(), any(), any()]
}

/// An empty part, one at the start, one at the end, or any.
fn part(random: &mut Random, length: usize) -> Range<usize> {
    let (one, other) = (random.within(0, length), random.within(0, length));
    match random.below(4) {
        0 => one..one,
        1 => 0..one,
        2 => one..length,
        _ => one.min(other)..one.max(other),
    }
}
