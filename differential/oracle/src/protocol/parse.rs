//! Words of a question, turned into plain data.

use crate::engine::compact::Verdict;
use crate::engine::memtable::Call;
use crate::engine::read::{Bounds, Kind, List};
use crate::engine::Row;
use crate::ValueType;
use std::ops::Bound;
use std::str::SplitAsciiWhitespace;

/// Why a line is no question.
pub struct Refused(pub &'static str);

impl Refused {
    pub fn new(why: &'static str) -> Self {
        Self(why)
    }
}

type Parsed<T> = Result<T, Refused>;

pub struct Words<'a>(SplitAsciiWhitespace<'a>);

impl<'a> Iterator for Words<'a> {
    type Item = &'a str;

    fn next(&mut self) -> Option<&'a str> {
        self.0.next()
    }
}

impl<'a> Words<'a> {
    pub fn new(line: &'a str) -> Self {
        Self(line.split_ascii_whitespace())
    }

    fn word(&mut self) -> Parsed<&'a str> {
        self.next().ok_or(Refused("a word is missing"))
    }

    /// The answer, if nothing is left of the question.
    pub fn end(mut self, answer: String) -> Parsed<String> {
        match self.next() {
            None => Ok(answer),
            Some(_) => Err(Refused("a word too many")),
        }
    }

    pub fn number(&mut self) -> Parsed<u64> {
        number(self.word()?)
    }

    pub fn bytes(&mut self) -> Parsed<Vec<u8>> {
        match self.word()? {
            "-" => Ok(Vec::new()),
            word => bytes(word),
        }
    }

    pub fn row(&mut self) -> Parsed<Row> {
        row(self.word()?)
    }

    pub fn flags(&mut self) -> Parsed<(bool, bool)> {
        match self.word()? {
            "-" => Ok((false, false)),
            "e" => Ok((true, false)),
            "z" => Ok((false, true)),
            "ez" => Ok((true, true)),
            _ => Err(Refused("flags are -, e, z or ez")),
        }
    }

    pub fn bounds(&mut self) -> Parsed<Bounds> {
        Ok(Bounds {
            lower: bound(self.word()?)?,
            upper: bound(self.word()?)?,
        })
    }

    pub fn steps(&mut self) -> Parsed<&'a str> {
        match self.word()? {
            "-" => Ok(""),
            steps if steps.bytes().all(|step| matches!(step, b'F' | b'B')) => Ok(steps),
            _ => Err(Refused("steps are F and B")),
        }
    }

    pub fn rows_and_verdicts(mut self) -> Parsed<(Vec<Row>, Option<Vec<Verdict>>)> {
        let mut rows = Vec::new();
        for word in self.by_ref() {
            if word == "|" {
                let verdicts = self.map(verdict).collect::<Parsed<Vec<_>>>()?;
                if verdicts.len() != rows.len() {
                    return Err(Refused("verdicts are not as many as records"));
                }
                return Ok((rows, Some(verdicts)));
            }
            rows.push(row(word)?);
        }
        Ok((rows, None))
    }

    pub fn lists(self) -> Parsed<Vec<List>> {
        let mut lists: Vec<List> = Vec::new();
        for word in self {
            if word.contains('@') {
                let list = lists.last_mut().ok_or(Refused("a record in no list"))?;
                list.rows.push(row(word)?);
            } else {
                let kind = kind(word)?;
                lists.push(List {
                    kind,
                    rows: Vec::new(),
                });
            }
        }
        Ok(lists)
    }

    pub fn calls(self) -> Parsed<Vec<Call>> {
        self.map(call).collect()
    }
}

fn number(word: &str) -> Parsed<u64> {
    word.parse().map_err(|_| Refused("no number of 64 bits"))
}

/// Hexadecimal pairs; `*n` behind them repeats them.
fn bytes(word: &str) -> Parsed<Vec<u8>> {
    match word.split_once('*') {
        None => pairs(word),
        Some((pattern, times)) => {
            let times = usize::try_from(number(times)?).map_err(|_| Refused("too long"))?;
            Ok(pairs(pattern)?.repeat(times))
        }
    }
}

fn pairs(word: &str) -> Parsed<Vec<u8>> {
    if word.len() % 2 != 0 {
        return Err(Refused("half a byte"));
    }
    word.as_bytes()
        .chunks_exact(2)
        .map(|pair| Ok(digit(pair[0])? * 16 + digit(pair[1])?))
        .collect()
}

fn digit(letter: u8) -> Parsed<u8> {
    match letter {
        b'0'..=b'9' => Ok(letter - b'0'),
        b'a'..=b'f' => Ok(letter - b'a' + 10),
        b'A'..=b'F' => Ok(letter - b'A' + 10),
        _ => Err(Refused("no hexadecimal digit")),
    }
}

/// `key@seqno`, a tag letter, and `=value` where there is one.
fn row(word: &str) -> Parsed<Row> {
    let (version, value) = match word.split_once('=') {
        Some((version, value)) => (version, bytes(value)?),
        None => (word, Vec::new()),
    };
    let (key, rest) = version.split_once('@').ok_or(Refused("no record"))?;
    let last = rest.len().checked_sub(1).ok_or(Refused("no tag"))?;
    let (seqno, tag) = rest.split_at_checked(last).ok_or(Refused("no tag"))?;
    Ok(Row {
        key: bytes(key)?,
        seqno: number(seqno)?,
        tag: tag_of(tag)?,
        value,
    })
}

fn tag_of(letter: &str) -> Parsed<ValueType> {
    match letter {
        "V" => Ok(ValueType::Value),
        "T" => Ok(ValueType::Tombstone),
        "W" => Ok(ValueType::WeakTombstone),
        "I" => Ok(ValueType::Indirection),
        _ => Err(Refused("tags are V, T, W and I")),
    }
}

fn bound(word: &str) -> Parsed<Bound<Vec<u8>>> {
    match word.split_at_checked(2) {
        None if word == "-" => Ok(Bound::Unbounded),
        Some(("i:", key)) => Ok(Bound::Included(bytes(key)?)),
        Some(("x:", key)) => Ok(Bound::Excluded(bytes(key)?)),
        _ => Err(Refused("bounds are -, i:key or x:key")),
    }
}

fn kind(word: &str) -> Parsed<Kind> {
    match word {
        "t" => Ok(Kind::Table),
        "r" => Ok(Kind::RunTable),
        "m" => Ok(Kind::Memtable),
        _ => match word.strip_prefix("e:") {
            Some(snapshot) => Ok(Kind::Ephemeral(number(snapshot)?)),
            None => Err(Refused("lists are t, r, m or e:snapshot")),
        },
    }
}

fn verdict(word: &str) -> Parsed<Verdict> {
    match word {
        "k" => Ok(Verdict::Keep),
        "d" => Ok(Verdict::Drop),
        _ => replacement(word),
    }
}

/// `rTAG`, and `=value` where there is one.
fn replacement(word: &str) -> Parsed<Verdict> {
    let word = word
        .strip_prefix('r')
        .ok_or(Refused("verdicts are k, d or rTAG=value"))?;
    let (tag, value) = word.split_once('=').unwrap_or((word, ""));
    Ok(Verdict::Replace(tag_of(tag)?, bytes(value)?))
}

fn call(word: &str) -> Parsed<Call> {
    match word {
        "all" => Ok(Call::All),
        "size" => Ok(Call::Size),
        "len" => Ok(Call::Len),
        "highest" => Ok(Call::Highest),
        "flag" => Ok(Call::Flag),
        "flagged" => Ok(Call::Flagged),
        "id" => Ok(Call::Id),
        _ => call_with_key(word),
    }
}

fn call_with_key(word: &str) -> Parsed<Call> {
    if let Some(record) = word.strip_prefix('+') {
        return Ok(Call::Insert(row(record)?));
    }
    let asked = word.strip_prefix('?').ok_or(Refused("unknown call"))?;
    let (key, seqno) = asked.split_once('@').ok_or(Refused("no seqno"))?;
    Ok(Call::Get {
        key: bytes(key)?,
        seqno: number(seqno)?,
    })
}
