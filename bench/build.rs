//! Links the archive that VLS_ARCHIVE names, and libtimed.a beside it.

use std::env;
use std::path::PathBuf;

fn main() {
    println!("cargo:rerun-if-env-changed=VLS_ARCHIVE");
    let named = env::var("VLS_ARCHIVE").expect("VLS_ARCHIVE names the archive; bench/run sets it");
    let archive = PathBuf::from(named);
    println!("cargo:rerun-if-changed={}", archive.display());
    let folder = archive.parent().expect("an archive lies in a folder");
    let name = archive.file_stem().and_then(|stem| stem.to_str());
    let name = name.and_then(|stem| stem.strip_prefix("lib"));
    println!("cargo:rustc-link-search=native={}", folder.display());
    println!(
        "cargo:rustc-link-lib=static={}",
        name.expect("an archive is called libNAME.a")
    );
    let timed = folder.join("libtimed.a");
    println!("cargo:rerun-if-changed={}", timed.display());
    println!("cargo:rustc-link-lib=static=timed");
}
