//! Writes the module list that compiles the crate's own files where they lie.
//!
//! `#[path]` takes a literal only, and the folder is known no sooner than now.

use std::env;
use std::fs;
use std::path::{Path, PathBuf};

const DEFAULT: &str = "../shared/docs/src";

const MODULES: [(&str, &str); 9] = [
    ("value_type", "value_type.rs"),
    ("key", "key.rs"),
    ("value", "value.rs"),
    ("double_ended_peekable", "double_ended_peekable.rs"),
    ("mvcc_stream", "mvcc_stream.rs"),
    ("merge", "merge.rs"),
    ("memtable", "memtable/mod.rs"),
    ("range", "range.rs"),
    ("run_reader", "run_reader.rs"),
];

const STREAM: &str = "compaction/stream.rs";

fn main() {
    println!("cargo:rerun-if-env-changed=LSM_TREE_SRC");
    println!("cargo:rustc-check-cfg=cfg(coverage_nightly)");
    let folder = source_folder();
    println!("cargo:rustc-env=CRATE_FOLDER={}", folder.display());
    let mut text = String::new();
    for (name, file) in MODULES {
        text += &module(name, &folder.join(file));
    }
    let stream = module("stream", &folder.join(STREAM));
    text += &format!("pub mod compaction {{\n{stream}}}\n");
    let out = PathBuf::from(env::var_os("OUT_DIR").expect("cargo sets OUT_DIR"));
    fs::write(out.join("crate_files.rs"), text).expect("OUT_DIR can be written");
}

/// The folder of the crate's files; a relative name counts from the repository.
fn source_folder() -> PathBuf {
    let manifest = env::var_os("CARGO_MANIFEST_DIR").expect("cargo sets CARGO_MANIFEST_DIR");
    let repository = Path::new(&manifest).join("../..");
    let told = env::var("LSM_TREE_SRC").unwrap_or_else(|_| DEFAULT.to_string());
    let folder = repository.join(&told).join("src");
    fs::canonicalize(&folder).unwrap_or_else(|why| {
        panic!(
            "no crate files in {told}/src ({why}); set LSM_TREE_SRC to the folder that holds src/"
        )
    })
}

/// One module over one file. Its unused items are the crate's own affair.
fn module(name: &str, file: &Path) -> String {
    assert!(file.is_file(), "{} is missing", file.display());
    println!("cargo:rerun-if-changed={}", file.display());
    let path = file.to_str().expect("the path is text");
    format!("#[allow(dead_code, unused_imports)]\n#[path = {path:?}]\npub mod {name};\n")
}
