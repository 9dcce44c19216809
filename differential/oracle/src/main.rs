//! Reads questions from standard input and writes answers to standard output.

use oracle::protocol;
use std::io::{self, BufRead, BufReader, BufWriter, Write};

const BUFFER: usize = 1 << 16;

fn main() -> io::Result<()> {
    protocol::answer_panics();
    let mut input = BufReader::with_capacity(BUFFER, io::stdin().lock());
    let mut output = BufWriter::with_capacity(BUFFER, io::stdout().lock());
    let mut line = Vec::new();
    while input.read_until(b'\n', &mut line)? != 0 {
        // What is no text is no question either, and must not end the process.
        let question = String::from_utf8_lossy(&line);
        if let Some(answer) = protocol::answer(&question) {
            writeln!(output, "{answer}")?;
        }
        if question.trim() == "flush" {
            output.flush()?;
        }
        line.clear();
    }
    output.flush()
}
