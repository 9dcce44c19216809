//! The figures as they stand in docs/.

use std::fs;
use std::io;
use std::path::Path;

const BEGIN: &str = "<!-- bench/run writes what follows -->";
const END: &str = "<!-- bench/run writes what precedes -->";

/// Puts the figures between the marks of BENCHMARKS.md, and the picture beside it.
pub fn write(folder: &Path, figures: &str, picture: &str) -> Result<(), String> {
    let page = folder.join("BENCHMARKS.md");
    let text = fs::read_to_string(&page).map_err(told(&page))?;
    let text = with_figures(&text, figures).ok_or_else(|| lost(&page))?;
    fs::write(&page, text).map_err(told(&page))?;
    let beside = folder.join("benchmarks.svg");
    fs::write(&beside, picture).map_err(told(&beside))
}

fn with_figures(text: &str, figures: &str) -> Option<String> {
    let (before, rest) = text.split_once(BEGIN)?;
    let (_, after) = rest.split_once(END)?;
    let figures = figures.trim();
    Some(format!("{before}{BEGIN}\n\n{figures}\n\n{END}{after}"))
}

fn told(path: &Path) -> impl Fn(io::Error) -> String + '_ {
    move |why| format!("{}: {why}", path.display())
}

fn lost(page: &Path) -> String {
    format!(
        "{}: no marks for the figures to stand between",
        page.display()
    )
}
