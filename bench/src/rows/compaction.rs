//! Compacting one list.

use super::{same, Made, Pair, Row, Section};
use crate::lists::{draw, encode, Shape};
use crate::measure::{fresh, steady, Side};
use crate::ours::{Compacted, Verdict, KEEP};
use crate::theirs::{BySeqno, Drops};
use crate::{ours, theirs};
use oracle::engine::compact::Rule;
use oracle::random::Random;
use oracle::InternalValue;
use std::hint::black_box;
use std::rc::Rc;

pub static WHOLE: Section = Section {
    title: "Compaction, beside the Rust from bytes to bytes",
    name: "compact",
    other: "Rust",
    unit: "record",
    rate: true,
};

static STREAM: Section = Section {
    title:
        "Compaction from bytes to bytes, beside the Rust's stream alone, from records to records",
    name: "compact beside the stream",
    other: "stream",
    unit: "record",
    rate: true,
};

static FILTERED: Section = Section {
    title: "Compaction with a filter that keeps all, beside the Rust from bytes to bytes with the same filter",
    name: "compact filtered",
    other: "Rust",
    unit: "record",
    rate: true,
};

pub static UNFILTERED: Section = Section {
    title: "Compaction with a filter that keeps all, beside compaction without one",
    name: "compact filtered beside unfiltered",
    other: "unfiltered",
    unit: "record",
    rate: true,
};

/// How much a compaction keeps, of a list with ten versions a key.
#[derive(Clone, Copy)]
pub enum Keep {
    All,
    Half,
    Little,
    /// As little as on the last level: tombstones are evicted and seqnos zeroed.
    Last,
}

impl Keep {
    fn rule(self, records: usize) -> Rule {
        let threshold = match self {
            Self::All => 0,
            Self::Half => records as u64 / 2,
            Self::Little | Self::Last => u64::MAX,
        };
        let last = matches!(self, Self::Last);
        Rule {
            threshold,
            evict: last,
            zero: last,
        }
    }
}

pub const KEEPS: [(&str, Keep); 4] = [
    ("all kept", Keep::All),
    ("half kept", Keep::Half),
    ("little kept", Keep::Little),
    ("last level", Keep::Last),
];

type Make = fn(Job) -> Made;

pub fn rows() -> Vec<Row> {
    let sections: [(&Section, bool, Make); 4] = [
        (&WHOLE, false, from_bytes),
        (&STREAM, false, stream),
        (&FILTERED, true, from_bytes),
        (&UNFILTERED, true, unfiltered),
    ];
    let mut rows = Vec::new();
    for (section, filtered, make) in sections {
        for key in [12, 212] {
            for (told, keep) in KEEPS {
                let shape = Shape::plain(4_000, key).versions(10);
                let label = format!("keys of {key} bytes, {told}");
                let make = move |random: &mut Random| make(Job::new(shape, keep, filtered, random));
                rows.push(Row::new(section, label, (shape, 1), make));
            }
        }
    }
    rows
}

pub fn whole(shape: Shape, keep: Keep, random: &mut Random) -> Made {
    from_bytes(Job::new(shape, keep, false, random))
}

fn from_bytes(job: Job) -> Made {
    let (theirs, mut out, mut drops) = (job.clone(), Vec::new(), Drops::default());
    job.beside(steady(move || theirs.theirs(&mut out, &mut drops)))
}

fn stream(job: Job) -> Made {
    let items = theirs::open(&job.list).ok_or("the Rust finds no list")?;
    let rule = job.rule.clone();
    job.beside(fresh(move || items.clone(), move |items| run(items, &rule)))
}

/// Takes all records out of the Rust's stream.
fn run(items: Vec<InternalValue>, rule: &Rule) {
    let mut drops = Drops::default();
    for item in theirs::stream(items.into_iter(), rule, &mut drops) {
        black_box(&item);
    }
    black_box(drops.0);
}

fn unfiltered(job: Job) -> Made {
    let mut other = job.clone();
    other.filtered = false;
    other.compare()?;
    job.beside(other.timed())
}

/// A list and how it is compacted: with a filter that keeps all, or with none.
#[derive(Clone)]
struct Job {
    list: Vec<u8>,
    rule: Rc<Rule>,
    filtered: bool,
    /// One for each record.
    verdicts: Vec<Verdict>,
    /// The Rust's filter, with an entry for each seqno; they count from 1.
    kept: Vec<bool>,
}

impl Job {
    fn new(shape: Shape, keep: Keep, filtered: bool, random: &mut Random) -> Self {
        Self {
            list: encode(&draw(shape, random)),
            rule: Rc::new(keep.rule(shape.records)),
            filtered,
            verdicts: vec![KEEP; shape.records],
            kept: vec![true; shape.records + 1],
        }
    }

    fn ours(&self, out: &mut [u8], report: &mut [u32]) -> Compacted {
        if self.filtered {
            return ours::compact_filtered(&self.list, &self.rule, &self.verdicts, out, report);
        }
        ours::compact(&self.list, &self.rule, out, report)
    }

    fn theirs(&self, out: &mut Vec<u8>, drops: &mut Drops) {
        let list = black_box(&self.list);
        if self.filtered {
            let filter = BySeqno(black_box(&self.kept));
            return theirs::compact_filtered(list, &self.rule, filter, out, drops);
        }
        theirs::compact(list, &self.rule, out, drops);
    }

    /// Room for the new list and for the report.
    fn room(&self) -> (Vec<u8>, Vec<u32>) {
        (vec![0; self.list.len()], vec![0; self.verdicts.len()])
    }

    /// Ours, to be timed.
    fn timed(self) -> Side {
        let (mut out, mut report) = self.room();
        steady(move || self.ours(&mut out, &mut report))
    }

    /// Ours beside another side, once the answers were compared.
    fn beside(self, theirs: Side) -> Made {
        self.compare()?;
        Ok(Pair {
            units: self.verdicts.len(),
            bytes: self.list.len(),
            ours: self.timed(),
            theirs,
        })
    }

    /// The new lists' bytes are the same, and so are the expired records.
    fn compare(&self) -> Result<(), String> {
        let (mut out, mut report) = self.room();
        let compacted = self.ours(&mut out, &mut report);
        out.truncate(compacted.length as usize);
        report.truncate(compacted.reported as usize);
        let (mut written, mut drops) = (Vec::new(), Drops::default());
        self.theirs(&mut written, &mut drops);
        same("the new list", &out, &written)?;
        let items = theirs::open(&self.list).ok_or("the Rust finds no list")?;
        let seqno = |number: &u32| items[*number as usize].key.seqno;
        let expired: Vec<u64> = report.iter().map(seqno).collect();
        same("the expired records", &expired, &drops.0)
    }
}
