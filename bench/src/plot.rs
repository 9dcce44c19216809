//! The ratios over the number of records, as a picture.
//!
//! No colour is that of a background: grey text and middle tones are readable on white and on black.

use crate::figures::Figure;
use crate::measure::Spread;
use crate::words::grouped;

const WIDTH: f64 = 880.0;
const HEIGHT: f64 = 500.0;
/// The frame: left, top, right, bottom.
const FRAME: [f64; 4] = [70.0, 40.0, 620.0, 430.0];
const GREY: &str = "#777777";
const SIZES: [usize; 5] = [100, 1_000, 10_000, 24_000, 60_000];
const COLOURS: [(&str, &str); 6] = [
    ("check", "#0d9488"),
    ("compaction", "#d97706"),
    ("read 1 list", "#3b82f6"),
    ("read 4 lists", "#a855f7"),
    ("read 16 lists", "#ef4444"),
    ("memtable build", "#db2777"),
];

struct Line {
    name: &'static str,
    points: Vec<(usize, Spread)>,
}

impl Line {
    fn colour(&self) -> &'static str {
        let work = self.name.split(", ").next();
        let known = COLOURS.iter().find(|(name, _)| work == Some(name));
        known.map_or(GREY, |(_, colour)| colour)
    }

    /// Short records have the colour of the same work and are dashed.
    fn style(&self) -> String {
        let short = self.name.contains("short");
        let dash = if short { " stroke-dasharray='6 5'" } else { "" };
        format!("stroke='{}' stroke-width='2'{dash}", self.colour())
    }

    fn spreads(&self) -> impl Iterator<Item = &Spread> {
        self.points.iter().map(|(_, spread)| spread)
    }
}

/// The picture, or nothing where no row is a point of it.
pub fn picture(figures: &[Figure]) -> Option<String> {
    let lines = lines(figures);
    let ticks = ticks(&lines)?;
    let scale = Scale {
        lowest: *ticks.first()?,
        highest: *ticks.last()?,
    };
    let mut svg = opening() + &axes(&scale, &ticks);
    for (number, line) in lines.iter().enumerate() {
        svg += &curve(&scale, line);
        svg += &legend(number, line);
    }
    Some(svg + "</svg>\n")
}

fn lines(figures: &[Figure]) -> Vec<Line> {
    let mut lines: Vec<Line> = Vec::new();
    for figure in figures {
        let Some(name) = figure.row.series else {
            continue;
        };
        let point = (figure.row.shape.records, figure.ratio());
        match lines.last_mut() {
            Some(line) if line.name == name => line.points.push(point),
            _ => lines.push(Line {
                name,
                points: vec![point],
            }),
        }
    }
    lines
}

/// Ratios 1, 2 and 5 times a power of ten, from below the lowest to above the highest.
fn ticks(lines: &[Line]) -> Option<Vec<f64>> {
    let spreads: Vec<&Spread> = lines.iter().flat_map(Line::spreads).collect();
    let lowest = spreads.iter().map(|spread| spread.lowest);
    let lowest = lowest.min_by(f64::total_cmp)?.min(1.0);
    let highest = spreads.iter().map(|spread| spread.highest);
    let highest = highest.max_by(f64::total_cmp)?.max(1.0);
    let decade = |power| [1.0, 2.0, 5.0].map(|digit| digit * 10f64.powi(power));
    let all: Vec<f64> = (-4..6).flat_map(decade).collect();
    let first = all.iter().rposition(|tick| *tick <= lowest)?;
    let last = all.iter().position(|tick| *tick >= highest)?;
    Some(all[first..=last].to_vec())
}

/// Logarithmic both ways.
struct Scale {
    lowest: f64,
    highest: f64,
}

impl Scale {
    fn x(&self, records: usize) -> f64 {
        let [left, _, right, _] = FRAME;
        let (least, most) = (80f64.ln(), 75_000f64.ln());
        left + (right - left) * ((records as f64).ln() - least) / (most - least)
    }

    fn y(&self, ratio: f64) -> f64 {
        let [_, top, _, bottom] = FRAME;
        bottom - (bottom - top) * (ratio / self.lowest).ln() / (self.highest / self.lowest).ln()
    }
}

fn opening() -> String {
    let title = "Time of ours divided by time of the Rust, over the number of records";
    let font = "font-family='sans-serif' font-size='13'";
    format!("<svg xmlns='http://www.w3.org/2000/svg' viewBox='0 0 {WIDTH} {HEIGHT}' {font} fill='{GREY}' role='img'>\n<title>{title}</title>\n")
}

fn axes(scale: &Scale, ticks: &[f64]) -> String {
    let [left, top, right, bottom] = FRAME;
    let mut svg = String::new();
    for &tick in ticks {
        let y = scale.y(tick);
        let width = if tick == 1.0 { 2.0 } else { 0.4 };
        svg += &rule(
            [left, y, right, y],
            &format!("stroke='{GREY}' stroke-width='{width}'"),
        );
        svg += &words([left - 8.0, y + 4.0], "end", &tick_text(tick));
    }
    for records in SIZES {
        let x = scale.x(records);
        svg += &rule(
            [x, top, x, bottom],
            &format!("stroke='{GREY}' stroke-width='0.4'"),
        );
        svg += &words([x, bottom + 20.0], "middle", &grouped(records));
    }
    let across = "records in all";
    let up = "ours : Rust (at 1 they take the same time, below it ours is faster)";
    svg += &words([(left + right) / 2.0, bottom + 44.0], "middle", across);
    svg + &words([left - 50.0, top - 16.0], "start", up)
}

fn tick_text(tick: f64) -> String {
    if tick < 1.0 {
        return tick.to_string();
    }
    grouped(tick.round() as usize)
}

/// The medians, and at each the rounds from lowest to highest.
fn curve(scale: &Scale, line: &Line) -> String {
    let colour = line.colour();
    let (mut svg, mut path) = (String::new(), String::new());
    for (records, ratio) in &line.points {
        let (x, y) = (scale.x(*records), scale.y(ratio.median));
        let span = [x, scale.y(ratio.lowest), x, scale.y(ratio.highest)];
        svg += &rule(span, &format!("stroke='{colour}' stroke-width='1.5'"));
        svg += &format!("<circle cx='{x:.1}' cy='{y:.1}' r='3.5' fill='{colour}'/>\n");
        path += &format!("{x:.1},{y:.1} ");
    }
    svg + &format!(
        "<polyline points='{}' fill='none' {}/>\n",
        path.trim_end(),
        line.style()
    )
}

fn legend(number: usize, line: &Line) -> String {
    let (x, y) = (FRAME[2] + 20.0, FRAME[1] + 20.0 + 26.0 * number as f64);
    rule([x, y, x + 32.0, y], &line.style()) + &words([x + 40.0, y + 4.0], "start", line.name)
}

fn rule([x1, y1, x2, y2]: [f64; 4], style: &str) -> String {
    format!("<line x1='{x1:.1}' y1='{y1:.1}' x2='{x2:.1}' y2='{y2:.1}' {style}/>\n")
}

fn words([x, y]: [f64; 2], anchor: &str, text: &str) -> String {
    format!("<text x='{x:.1}' y='{y:.1}' text-anchor='{anchor}'>{text}</text>\n")
}
