//! Writes the recorded answers of the Rust into the folder named first.
//!
//! Every number drawn comes from a fixed seed, so every run writes the same
//! bytes on every machine. `differential/RECORDED.md` tells the form.

mod compactions;
mod draw;
mod filtered;
mod form;
mod memtables;
mod prefixes;
mod reads;

use std::path::Path;
use std::{env, fs, io};

fn main() -> io::Result<()> {
    let Some(folder) = env::args_os().nth(1) else {
        eprintln!("usage: record FOLDER");
        std::process::exit(2);
    };
    let folder = Path::new(&folder);
    fs::create_dir_all(folder)?;
    write(folder, "compactions.bin", compactions::cases())?;
    write(folder, "filtered.bin", filtered::cases())?;
    write(folder, "reads.bin", reads::cases())?;
    write(folder, "memtables.bin", memtables::cases())?;
    write(folder, "prefixes.bin", prefixes::cases())
}

fn write(folder: &Path, name: &str, cases: Vec<form::Case>) -> io::Result<()> {
    let bytes = form::file(&cases);
    println!("{name}: {} cases, {} bytes", cases.len(), bytes.len());
    fs::write(folder.join(name), bytes)
}
