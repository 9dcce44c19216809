//! The verified core beside the Rust: the same inputs through both, and how long each takes.

mod clock;
mod docs;
mod figures;
mod goals;
mod lists;
mod measure;
mod options;
mod ours;
mod paths;
mod plot;
mod rows;
mod table;
mod theirs;
mod words;

use figures::Figure;
use options::Options;
use rows::{Row, Section};
use std::process::ExitCode;

/// Rows under one heading.
type Chosen = Vec<(&'static Section, Vec<Row>)>;

fn main() -> ExitCode {
    let planned = Options::given().and_then(|options| Ok((chosen(&options.only)?, options)));
    let (rows, options) = match planned {
        Ok(planned) => planned,
        Err(why) => return failed(2, &why),
    };
    match run(rows, &options) {
        Ok(()) => ExitCode::SUCCESS,
        Err(why) => failed(1, &why),
    }
}

fn failed(status: u8, why: &str) -> ExitCode {
    eprintln!("bench: {why}");
    ExitCode::from(status)
}

/// Times the rows, prints the tables, and writes them down if that is wanted.
fn run(rows: Chosen, options: &Options) -> Result<(), String> {
    let Options {
        machine,
        rounds,
        seed,
        ..
    } = options;
    let machine = format!("{machine}\n- {rounds} rounds, seed {seed}");
    println!("{machine}");
    let (figures, tables) = measured(rows, options)?;
    if !options.only.is_empty() {
        return Ok(());
    }
    let goals = goals::tables(&figures);
    println!("\n### Goals\n\n{goals}");
    if let (Some(folder), Some(picture)) = (&options.docs, plot::picture(&figures)) {
        let text = format!("### Goals\n\n{goals}\n### Machine\n\n{machine}\n{tables}");
        docs::write(folder, &text, &picture)?;
    }
    Ok(())
}

/// What was measured of each row. The tables are printed as they grow.
fn measured(rows: Chosen, options: &Options) -> Result<(Vec<Figure>, String), String> {
    let (mut figures, mut tables) = (Vec::new(), String::new());
    let mut say = |text: String| {
        println!("{text}");
        tables += &text;
        tables += "\n";
    };
    for (section, rows) in rows {
        let width = rows.iter().map(|row| row.label.len()).max().unwrap_or(0);
        say(table::head(section, width));
        for row in rows {
            let figure = timed(row, options)?;
            say(table::row(&figure, width));
            figures.push(figure);
        }
    }
    Ok((figures, tables))
}

/// The rows whose name contains the words, by section.
fn chosen(only: &str) -> Result<Chosen, String> {
    let mut sections = Chosen::new();
    for row in rows::all() {
        if !row.name().contains(only) {
            continue;
        }
        match sections.last_mut() {
            Some((section, rows)) if section.name == row.section.name => rows.push(row),
            _ => sections.push((row.section, vec![row])),
        }
    }
    if sections.is_empty() {
        return Err(format!("no row's name contains {only:?}"));
    }
    Ok(sections)
}

fn timed(row: Row, options: &Options) -> Result<Figure, String> {
    let made = row.make(options.seed);
    let mut pair = made.map_err(|why| format!("{}: {why}", row.name()))?;
    let times = measure::measure(
        &mut pair.ours,
        &mut pair.theirs,
        options.rounds,
        options.batch,
    );
    Ok(Figure::new(row, &pair, times))
}
