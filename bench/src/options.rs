//! What bench/run hands over. It has judged the words already.

use std::env;
use std::path::PathBuf;
use std::time::Duration;

pub struct Options {
    pub rounds: usize,
    /// How long one side is timed in a round.
    pub batch: Duration,
    pub seed: u64,
    /// Only rows whose name contains it.
    pub only: String,
    /// What is told of the machine.
    pub machine: String,
    /// The folder of the page with the figures, if they are to be written there.
    pub docs: Option<PathBuf>,
}

impl Options {
    pub fn given() -> Result<Self, String> {
        let words: Vec<String> = env::args().skip(1).collect();
        let [rounds, batch, seed, only, machine, docs] = &words[..] else {
            return Err("call bench/run (try bench/run --help)".to_string());
        };
        Ok(Self {
            rounds: number(rounds)? as usize,
            batch: Duration::from_millis(number(batch)?),
            seed: number(seed)?,
            only: only.clone(),
            machine: machine.clone(),
            docs: (!docs.is_empty()).then(|| docs.into()),
        })
    }
}

fn number(word: &str) -> Result<u64, String> {
    word.parse().map_err(|_| format!("no number: {word}"))
}
