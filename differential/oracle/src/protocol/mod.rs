//! The line protocol: one question a line, one answer a line. The README beside
//! this project describes it.

mod panics;
mod parse;
mod show;

pub use panics::answer_panics;

use crate::engine::{compact, memtable, order, prefix, read};
use crate::{InternalValue, ValueType};
use parse::{Refused, Words};
use std::cmp::Ordering;
use std::panic::{catch_unwind, AssertUnwindSafe};

type Answer = Result<String, Refused>;

/// The answer to one line; none for an empty line or a remark.
pub fn answer(line: &str) -> Option<String> {
    let mut words = Words::new(line);
    let command = words.next().filter(|word| !word.starts_with('#'))?;
    let asked = catch_unwind(AssertUnwindSafe(|| ask(command, words)));
    Some(match asked {
        Ok(Ok(answer)) => answer,
        Ok(Err(refused)) => format!("bad {}", refused.0),
        Err(_) if panics::ours() => "fault".to_string(),
        Err(_) => "panic".to_string(),
    })
}

fn ask(command: &str, words: Words) -> Answer {
    match command {
        "compact" => ask_compact(words),
        "read" => ask_read(words),
        "run" => ask_run(words),
        "memtable" => ask_memtable(words),
        "prefix" => ask_prefix(words),
        "prefix-upper" => ask_upper(words),
        "order" => ask_order(words),
        "tag" => ask_tag(words),
        "overhead" => ask_overhead(words),
        "flush" => words.end("ok".to_string()),
        _ => Err(Refused::new("unknown command")),
    }
}

fn ask_compact(mut words: Words) -> Answer {
    let threshold = words.number()?;
    let (evict, zero) = words.flags()?;
    let (rows, verdicts) = words.rows_and_verdicts()?;
    let rule = compact::Rule {
        threshold,
        evict,
        zero,
    };
    let done = compact::compact(&rows, &rule, verdicts.as_deref());
    Ok(show::compacted(&done))
}

fn ask_read(mut words: Words) -> Answer {
    let snapshot = words.number()?;
    let bounds = words.bounds()?;
    let steps = words.steps()?;
    let lists = words.lists()?;
    let mut reader = read::open(&lists, &bounds, snapshot);
    Ok(show::places(&read::steps(&mut reader, steps.as_bytes())))
}

fn ask_run(mut words: Words) -> Answer {
    let bounds = words.bounds()?;
    let steps = words.steps()?;
    let lists = words.lists()?;
    let places = match read::open_run(&lists, &bounds) {
        Some(mut reader) => read::steps(&mut reader, steps.as_bytes()),
        None => vec![None; steps.len()],
    };
    Ok(show::places(&places))
}

fn ask_memtable(mut words: Words) -> Answer {
    let id = words.number()?;
    let calls = words.calls()?;
    Ok(show::answers(&memtable::answers(id, &calls)))
}

fn ask_prefix(mut words: Words) -> Answer {
    let bounds = prefix::bounds(&words.bytes()?);
    let (lower, upper) = (show::bound(&bounds.lower), show::bound(&bounds.upper));
    words.end(format!("ok {lower} {upper}"))
}

fn ask_upper(mut words: Words) -> Answer {
    let prefix = words.bytes()?;
    let upper = prefix::upper(&prefix);
    words.end(format!("ok {}", show::bound(&upper)))
}

fn ask_order(mut words: Words) -> Answer {
    let (left, right) = (words.row()?, words.row()?);
    let answer = match order::order(&left, &right) {
        Ordering::Less => "ok less",
        Ordering::Equal => "ok equal",
        Ordering::Greater => "ok greater",
    };
    words.end(answer.to_string())
}

fn ask_tag(mut words: Words) -> Answer {
    let number = words.number()?;
    let number = u8::try_from(number).map_err(|_| Refused::new("a tag has 8 bits"))?;
    let answer = match ValueType::try_from(number) {
        Ok(tag) => format!("ok {}", show::letter(tag)),
        Err(()) => "ok none".to_string(),
    };
    words.end(answer)
}

fn ask_overhead(words: Words) -> Answer {
    words.end(format!("ok {}", std::mem::size_of::<InternalValue>()))
}
