//! The table: a heading for each section and a line for each row.

use crate::figures::Figure;
use crate::rows::Section;
use crate::words::rounded;

/// The heading, and the first two lines of the table below it.
pub fn head(section: &Section, width: usize) -> String {
    let Section {
        title, other, unit, ..
    } = section;
    let mut names = vec![
        format!("ours, ns per {unit}"),
        format!("{other}, ns per {unit}"),
        format!("ours : {other}"),
        "lowest to highest".to_string(),
    ];
    if section.rate {
        names.extend(["ours, MB/s".to_string(), format!("{other}, MB/s")]);
    }
    let rule = format!("|{}|{}", "-".repeat(width + 2), "---:|".repeat(names.len()));
    format!("\n### {title}\n\n{}\n{rule}", line("", width, &names))
}

pub fn row(figure: &Figure, width: usize) -> String {
    let (ours, theirs, ratio) = (figure.ours(), figure.theirs(), figure.ratio());
    let spread = format!("{} to {}", rounded(ratio.lowest), rounded(ratio.highest));
    let mut cells = vec![
        rounded(ours.nanoseconds),
        rounded(theirs.nanoseconds),
        format!("**{}**", rounded(ratio.median)),
        spread,
    ];
    if figure.row.section.rate {
        cells.extend([rounded(ours.megabytes), rounded(theirs.megabytes)]);
    }
    line(&figure.row.label, width, &cells)
}

fn line(label: &str, width: usize, cells: &[String]) -> String {
    let cells: String = cells.iter().map(|cell| format!(" {cell:>19} |")).collect();
    format!("| {label:width$} |{cells}")
}
