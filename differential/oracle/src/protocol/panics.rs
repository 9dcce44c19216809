//! Panics are answers here, and a panic of our own is never taken for the Rust's.

use std::cell::Cell;
use std::panic::PanicHookInfo;

const CRATE_FOLDER: &str = env!("CRATE_FOLDER");

thread_local! {
    static OURS: Cell<bool> = const { Cell::new(false) };
}

/// From now on a panic writes nothing, and it is known where it came from.
pub fn answer_panics() {
    std::panic::set_hook(Box::new(|info| OURS.set(!from_the_crate(info))));
}

/// Whether the last panic came from outside the crate's own files.
pub fn ours() -> bool {
    OURS.get()
}

fn from_the_crate(info: &PanicHookInfo) -> bool {
    info.location()
        .is_some_and(|place| place.file().starts_with(CRATE_FOLDER))
}
