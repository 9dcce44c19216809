//! Reading several lists from two ends.

use super::row::{mark_value, number_of, Row};
use crate::memtable::Memtable;
use crate::range::{IterState, TreeIter};
use crate::run_reader::RunReader;
use crate::version::{Run, SuperVersion, Version};
use crate::{InternalValue, Table, UserKey};
use std::ops::Bound;
use std::sync::Arc;

/// What the Rust is to hold a list as.
#[derive(Clone, Copy, PartialEq, Eq)]
pub enum Kind {
    /// A table that is a run of its own.
    Table,
    /// A table of the same run as the table before it.
    RunTable,
    /// A memtable: the last one is the active one, the others are sealed.
    Memtable,
    /// The memtable with a snapshot of its own.
    Ephemeral(u64),
}

pub struct List {
    pub kind: Kind,
    pub rows: Vec<Row>,
}

pub struct Bounds {
    pub lower: Bound<Vec<u8>>,
    pub upper: Bound<Vec<u8>>,
}

/// List and record number.
pub type Place = (usize, usize);

/// Lists as the Rust holds them. Any number of reads can be opened over them.
pub struct Held {
    version: SuperVersion,
    ephemeral: Option<(Arc<Memtable>, u64)>,
}

/// Hands the lists over to the Rust.
pub fn hold(lists: &[List]) -> Held {
    let mut memtables: Vec<_> = of_kind(lists, Kind::Memtable).collect();
    let active_memtable = memtables
        .pop()
        .unwrap_or_else(|| Arc::new(Memtable::new(0)));
    let version = SuperVersion {
        version: Version::of_one_level(runs(lists)),
        sealed_memtables: memtables,
        active_memtable,
    };
    Held {
        version,
        ephemeral: ephemeral(lists),
    }
}

impl Held {
    pub fn open(&self, bounds: &Bounds, snapshot: u64) -> TreeIter {
        let state = IterState {
            version: self.version.clone(),
            ephemeral: self.ephemeral.clone(),
        };
        let range = (bounds.lower.clone(), bounds.upper.clone());
        TreeIter::create_range::<Vec<u8>, _>(state, range, snapshot)
    }
}

/// Opens a read over all lists.
pub fn open(lists: &[List], bounds: &Bounds, snapshot: u64) -> TreeIter {
    hold(lists).open(bounds, snapshot)
}

/// Opens the reader of a single run over all lists, whatever their kind.
pub fn open_run(lists: &[List], bounds: &Bounds) -> Option<RunReader> {
    let tables = lists.iter().enumerate().map(|(at, list)| table(at, list));
    let run = Arc::new(Run::new(tables.collect()));
    let key = |bytes: &Vec<u8>| UserKey::from(&**bytes);
    let range = (
        bounds.lower.as_ref().map(key),
        bounds.upper.as_ref().map(key),
    );
    RunReader::new(run, range)
}

/// Takes the steps, `F` in front and any other letter at the back.
pub fn steps(
    reader: &mut impl DoubleEndedIterator<Item = crate::Result<InternalValue>>,
    steps: &[u8],
) -> Vec<Option<Place>> {
    steps
        .iter()
        .map(|step| match step {
            b'F' => reader.next(),
            _ => reader.next_back(),
        })
        .map(|item| item.map(|item| place(&item.expect("no stream here holds an error"))))
        .collect()
}

fn of_kind(lists: &[List], kind: Kind) -> impl Iterator<Item = Arc<Memtable>> + '_ {
    lists
        .iter()
        .enumerate()
        .filter(move |(_, list)| list.kind == kind)
        .map(|(at, list)| memtable(at, list))
}

fn ephemeral(lists: &[List]) -> Option<(Arc<Memtable>, u64)> {
    lists
        .iter()
        .enumerate()
        .find_map(|(at, list)| match list.kind {
            Kind::Ephemeral(snapshot) => Some((memtable(at, list), snapshot)),
            _ => None,
        })
}

fn runs(lists: &[List]) -> Vec<Run<Table>> {
    let mut runs: Vec<Vec<Table>> = Vec::new();
    for (at, list) in lists.iter().enumerate() {
        match (list.kind, runs.last_mut()) {
            (Kind::RunTable, Some(run)) => run.push(table(at, list)),
            (Kind::Table | Kind::RunTable, _) => runs.push(vec![table(at, list)]),
            _ => (),
        }
    }
    runs.into_iter().map(Run::new).collect()
}

fn table(at: usize, list: &List) -> Table {
    Table::new(items(at, list).collect())
}

fn memtable(at: usize, list: &List) -> Arc<Memtable> {
    let memtable = Memtable::new(at as u64);
    for item in items(at, list) {
        memtable.insert(item);
    }
    Arc::new(memtable)
}

/// The records of a list, each with its place instead of its value.
fn items(at: usize, list: &List) -> impl Iterator<Item = InternalValue> + '_ {
    list.rows.iter().enumerate().map(move |(number, row)| {
        let value = mark_value(at, &mark_value(number, &[]));
        InternalValue::from_components(&*row.key, value, row.seqno, row.tag)
    })
}

fn place(item: &InternalValue) -> Place {
    let mut bytes = [0; 4];
    bytes.copy_from_slice(&item.value[4..8]);
    (number_of(item), u32::from_le_bytes(bytes) as usize)
}
