//! The goals, and whether the figures meet them.

use crate::figures::Figure;
use crate::lists::Keys;
use crate::rows::{check, compaction, compare, growth, read, Row};
use crate::words::rounded;

/// A goal for the ratio of some rows.
struct Goal {
    text: &'static str,
    most: f64,
    concerns: fn(&Row) -> bool,
}

const RATIOS: [Goal; 8] = [
    Goal {
        text: "comparing keys of 200 bytes, all the same, takes at most 1.5 times as long as C's memcmp",
        most: 1.5,
        concerns: |row| {
            row.section.name == compare::COMPARE.name
                && row.shape.keys == Keys::Made(200)
                && row.label.ends_with(compare::SAME)
        },
    },
    Goal {
        text: "compaction from bytes to bytes takes at most half of the Rust's time",
        most: 0.5,
        concerns: |row| row.section.name == compaction::WHOLE.name,
    },
    Goal {
        text: "compaction of 212-byte keys takes at most 0.6 of the Rust's time",
        most: 0.6,
        concerns: |row| row.section.name == compaction::WHOLE.name && has_long_keys(row),
    },
    Goal {
        text:
            "compaction with a filter that keeps all takes at most 1.1 times as long as without one",
        most: 1.1,
        concerns: |row| row.section.name == compaction::UNFILTERED.name,
    },
    Goal {
        text: "a read at 16 lists takes at most the Rust's time",
        most: 1.0,
        concerns: |row| is_read(row) && row.lists == 16,
    },
    Goal {
        text: "a read at 1 list takes at most half of the Rust's time",
        most: 0.5,
        concerns: |row| is_read(row) && row.lists == 1,
    },
    Goal {
        text: "a read at 1 list of 212-byte keys takes at most 0.8 of the Rust's time",
        most: 0.8,
        concerns: |row| is_read(row) && row.lists == 1 && has_long_keys(row),
    },
    Goal {
        text: "checking 212-byte keys takes at most four times as long as a copy of the bytes",
        most: 4.0,
        concerns: |row| row.section.name == check::COPY.name && has_long_keys(row),
    },
];

fn has_long_keys(row: &Row) -> bool {
    row.shape.keys == Keys::Made(212)
}

fn is_read(row: &Row) -> bool {
    [read::ONE.name, read::SEVERAL.name].contains(&row.section.name)
}

/// The power of the records that a linear time may grow by: caches that no longer hold all of it add a little.
const LINEAR: Goal = Goal {
    text: "but for the build of a memtable, time grows as the records to the power of at most 1.1",
    most: 1.1,
    concerns: |row| row.series.is_some_and(|series| series != growth::MEMTABLE),
};

/// The goals with their worst rows, and the powers of growth.
pub fn tables(figures: &[Figure]) -> String {
    let mut text = "| goal | worst row | figure | met |\n|---|---|---:|---|\n".to_string();
    for goal in &RATIOS {
        let rows = concerned(goal, figures);
        let ratios = rows.map(|figure| (figure.row.name(), figure.ratio().median));
        text += &verdict(goal, ratios);
    }
    let rows = concerned(&LINEAR, figures);
    let powers =
        rows.filter_map(|last| Some((last.row.series?.to_string(), power(last, figures)?.0)));
    text + &verdict(&LINEAR, powers) + &powers_table(figures)
}

fn concerned<'a>(goal: &'a Goal, figures: &'a [Figure]) -> impl Iterator<Item = &'a Figure> {
    figures.iter().filter(|figure| (goal.concerns)(&figure.row))
}

/// The line of a goal: the highest figure is held to it.
fn verdict(goal: &Goal, figures: impl Iterator<Item = (String, f64)>) -> String {
    let worst = figures.max_by(|a, b| a.1.total_cmp(&b.1));
    let Some((name, figure)) = worst else {
        return String::new();
    };
    let met = if figure <= goal.most { "yes" } else { "**no**" };
    format!("| {} | {name} | {} | {met} |\n", goal.text, rounded(figure))
}

fn powers_table(figures: &[Figure]) -> String {
    let mut text = "\nTime as a power of the records, from 1,000 of them to the most:\n\n| | ours | Rust |\n|---|---:|---:|\n".to_string();
    for last in figures {
        if let (Some(series), Some((ours, theirs))) = (last.row.series, power(last, figures)) {
            text += &format!("| {series} | {ours:.2} | {theirs:.2} |\n");
        }
    }
    text
}

/// By which power of the records the time grows from 1,000 of them to the figure's, if these are its series' most.
fn power(last: &Figure, figures: &[Figure]) -> Option<(f64, f64)> {
    let in_series = |figure: &&Figure| figure.row.series == last.row.series;
    let records = |figure: &Figure| figure.row.shape.records;
    let most = figures.iter().filter(in_series).map(records).max()?;
    let first = figures
        .iter()
        .filter(in_series)
        .find(|figure| records(figure) == 1_000)?;
    if records(last) != most || most == 1_000 {
        return None;
    }
    let grown = (most as f64 / 1e3).ln();
    let power = |first: f64, last: f64| 1.0 + (last / first).ln() / grown;
    Some((
        power(first.ours().nanoseconds, last.ours().nanoseconds),
        power(first.theirs().nanoseconds, last.theirs().nanoseconds),
    ))
}
