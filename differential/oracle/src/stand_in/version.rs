//! A stand-in of our own for what a read sees: tables in runs, runs in levels,
//! and the memtables.

pub use super::run::Run;

use crate::memtable::Memtable;
use crate::Table;
use std::sync::Arc;

#[derive(Clone)]
pub struct Level {
    runs: Vec<Arc<Run<Table>>>,
}

#[derive(Clone)]
pub struct Version {
    levels: Vec<Level>,
}

#[derive(Clone)]
pub struct SuperVersion {
    pub version: Version,
    pub sealed_memtables: Vec<Arc<Memtable>>,
    pub active_memtable: Arc<Memtable>,
}

impl Level {
    pub fn iter(&self) -> impl Iterator<Item = &Arc<Run<Table>>> {
        self.runs.iter()
    }
}

impl Version {
    pub fn of_one_level(runs: Vec<Run<Table>>) -> Self {
        let runs = runs.into_iter().map(Arc::new).collect();
        Self {
            levels: vec![Level { runs }],
        }
    }

    pub fn iter_levels(&self) -> impl Iterator<Item = &Level> {
        self.levels.iter()
    }
}
