//! Compactions: all short lists of one key, and random longer ones.

use crate::draw::{self, TAGS};
use crate::form::{self, Case};
use oracle::engine::compact::{compact, Compacted, Rule};
use oracle::engine::Row;
use oracle::random::Random;
use oracle::ValueType;

const SEED: u64 = 0x5645_5253_494f_4e31;
const SEQNOS: u64 = 4;
const VERSIONS: usize = 3;
const RULES_FOR_EACH: usize = 5;
const RANDOM: usize = 800;
const LARGE: usize = 8;

pub fn cases() -> Vec<Case> {
    let mut random = Random::new(SEED);
    let mut cases = Vec::new();
    for rows in one_key_lists() {
        cases.extend(sampled(&mut random).map(|rule| case(&rows, &rule)));
    }
    for _ in 0..RANDOM {
        let most = random.within(1, 18);
        cases.push(random_case(&mut random, 6, most));
    }
    for _ in 0..LARGE {
        cases.push(random_case(&mut random, 60, 230));
    }
    cases
}

/// Rules with five different thresholds, 0 to 5, and all four flags among them.
pub fn sampled(random: &mut Random) -> impl Iterator<Item = Rule> {
    let thresholds = SEQNOS as usize + 2;
    let rules = thresholds * 4;
    let first = random.below(rules);
    (0..RULES_FOR_EACH).map(move |step| {
        let number = (first + step * (thresholds - 1)) % rules;
        let flags = number / thresholds;
        Rule {
            threshold: (number % thresholds) as u64,
            evict: flags % 2 == 1,
            zero: flags / 2 == 1,
        }
    })
}

fn random_case(random: &mut Random, most_keys: usize, most_rows: usize) -> Case {
    let rows = random_rows(random, most_keys, most_rows);
    case(&rows, &random_rule(random, &rows))
}

pub fn random_rows(random: &mut Random, most_keys: usize, most_rows: usize) -> Vec<Row> {
    let count = random.within(1, most_keys);
    let mut keys = draw::keys(random, count);
    if most_rows > 100 {
        keys.iter_mut().for_each(|key| key.truncate(24));
    }
    let rows = (0..most_rows).map(|_| draw::row(random, &keys)).collect();
    draw::in_order(rows)
}

pub fn random_rule(random: &mut Random, rows: &[Row]) -> Rule {
    Rule {
        threshold: draw::around(random, rows),
        evict: random.one_in(2),
        zero: random.one_in(2),
    }
}

/// Every list of the key `a` with up to three versions over few seqnos.
pub fn one_key_lists() -> Vec<Vec<Row>> {
    let mut lists = vec![Vec::new()];
    let mut from = 0;
    for _ in 0..VERSIONS {
        let until = lists.len();
        for at in from..until {
            let longer = longer_by_one(&lists[at]);
            lists.extend(longer);
        }
        from = until;
    }
    lists
}

fn longer_by_one(rows: &[Row]) -> Vec<Vec<Row>> {
    let limit = rows.last().map_or(SEQNOS, |last| last.seqno);
    let mut longer = Vec::new();
    for seqno in 0..limit {
        for tag in TAGS {
            let mut rows = rows.to_vec();
            rows.push(version(seqno, tag));
            longer.push(rows);
        }
    }
    longer
}

/// Values tell the versions apart; tombstones carry none.
fn version(seqno: u64, tag: ValueType) -> Row {
    let value = if tag.is_tombstone() {
        Vec::new()
    } else {
        vec![b'0' + seqno as u8]
    };
    Row {
        key: b"a".to_vec(),
        seqno,
        tag,
        value,
    }
}

fn case(rows: &[Row], rule: &Rule) -> Case {
    told(asked(rows, rule), &compact(rows, rule, None))
}

/// The fields of what is asked, but for a filter.
pub fn asked(rows: &[Row], rule: &Rule) -> Case {
    Case::new()
        .bytes(&form::list(rows))
        .number(rule.threshold)
        .number(u64::from(rule.evict))
        .number(u64::from(rule.zero))
}

/// The fields of what is answered.
pub fn told(case: Case, done: &Compacted) -> Case {
    let kept = done.kept.iter().map(|(_, row)| row);
    case.bytes(&form::list(kept))
        .bytes(&form::table(done.dropped.iter().copied()))
}
