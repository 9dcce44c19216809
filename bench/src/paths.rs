//! The call paths that bench/record_paths recorded.

use std::sync::OnceLock;

static RECORDED: &str = include_str!("../paths.txt");

/// All of them, in order.
pub fn all() -> &'static [Vec<u8>] {
    static ALL: OnceLock<Vec<Vec<u8>>> = OnceLock::new();
    ALL.get_or_init(decoded)
}

/// The functions' names, an empty line, and of each path how many functions it shares with the one before, and the others.
fn decoded() -> Vec<Vec<u8>> {
    let (names, lines) = RECORDED.split_once("\n\n").expect("an empty line");
    let names: Vec<&str> = names.lines().collect();
    let (mut paths, mut path) = (Vec::new(), Vec::new());
    for line in lines.lines() {
        let mut numbers = line
            .split(' ')
            .map(|word| word.parse::<usize>().expect("a number"));
        path.truncate(numbers.next().expect("how many are shared"));
        path.extend(numbers.map(|number| names[number]));
        paths.push(path.join(";").into_bytes());
    }
    paths
}
