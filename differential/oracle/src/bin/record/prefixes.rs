//! Prefixes and their bounds.

use crate::draw;
use crate::form::Case;
use oracle::engine::prefix::bounds;
use oracle::random::Random;

const SEED: u64 = 0x5052_4546_4958_4553;
const RANDOM: usize = 200;

pub fn cases() -> Vec<Case> {
    let mut random = Random::new(SEED);
    let mut prefixes = vec![Vec::new()];
    prefixes.extend((0..=255).map(|byte| vec![byte]));
    prefixes.extend((1..=40).map(|length| vec![0xff; length]));
    prefixes.extend((1..=20).map(|length| [vec![b'a'], vec![0xff; length]].concat()));
    for _ in 0..RANDOM {
        let longest = *random.pick(&[2, 4, 9, 300]);
        prefixes.push(draw::letters(&mut random, 1, longest));
    }
    prefixes.iter().map(|prefix| case(prefix)).collect()
}

fn case(prefix: &[u8]) -> Case {
    let bounds = bounds(prefix);
    Case::new()
        .bytes(prefix)
        .bound(&bounds.lower)
        .bound(&bounds.upper)
}
