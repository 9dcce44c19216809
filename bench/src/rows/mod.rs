//! The rows of the table: each makes its inputs, holds one side's answer to the other's, and hands both over to be timed.

pub mod call_paths;
pub mod check;
pub mod compaction;
pub mod compare;
pub mod growth;
pub mod memtable;
pub mod open;
pub mod read;

use crate::lists::Shape;
use crate::measure::Side;
use oracle::random::Random;

/// Rows under one heading.
pub struct Section {
    pub title: &'static str,
    /// Begins the name of each of its rows.
    pub name: &'static str,
    /// What stands beside ours.
    pub other: &'static str,
    /// What the nanoseconds are counted for.
    pub unit: &'static str,
    /// Whether bytes a second are told.
    pub rate: bool,
}

pub struct Row {
    pub section: &'static Section,
    pub label: String,
    pub shape: Shape,
    /// The lists that the records are spread over.
    pub lists: usize,
    /// The line of the plot that it is a point of.
    pub series: Option<&'static str>,
    make: Box<dyn Fn(&mut Random) -> Made>,
}

/// Both sides of a row, or what their answers differ in.
pub type Made = Result<Pair, String>;

pub struct Pair {
    pub ours: Side,
    pub theirs: Side,
    /// What one run handles: records, entries that are read, or calls.
    pub units: usize,
    /// The bytes of the lists that one run goes through.
    pub bytes: usize,
}

impl Row {
    fn new(
        section: &'static Section,
        label: String,
        (shape, lists): (Shape, usize),
        make: impl Fn(&mut Random) -> Made + 'static,
    ) -> Self {
        Self {
            section,
            label,
            shape,
            lists,
            series: None,
            make: Box::new(make),
        }
    }

    pub fn name(&self) -> String {
        format!("{}, {}", self.section.name, self.label)
    }

    /// Draws the inputs from the seed and compares the answers to them.
    pub fn make(&self, seed: u64) -> Made {
        (self.make)(&mut Random::new(seed))
    }
}

/// All rows, section by section.
pub fn all() -> Vec<Row> {
    let sections = [
        call_paths::rows(),
        compare::rows(),
        check::rows(),
        open::rows(),
        compaction::rows(),
        read::rows(),
        memtable::rows(),
        growth::rows(),
    ];
    sections.into_iter().flatten().collect()
}

/// Nothing if both are the same, else a message that says what is not.
fn same<T: PartialEq>(what: &str, ours: &T, theirs: &T) -> Result<(), String> {
    if ours == theirs {
        return Ok(());
    }
    Err(format!("the two sides differ in {what}"))
}

fn lists_text(lists: usize) -> String {
    let end = if lists == 1 { "" } else { "s" };
    format!("{lists} list{end}")
}
