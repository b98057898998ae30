//! The listing of a file of frames, or of what a receiver sends: a heading and one
//! row a line.

use crate::fields::slot_layout;
use crate::line::read_line;
use crate::meaning::slots_used;
use crate::record::{Category, Record, Refusal, OUT_OF_RANGE, SLOT_AFTER_EMPTY};
use crate::sentence::{read_sentence, HEAD};
use std::io::{BufRead, Result, Write};

/// How many lines are read at most.
pub const MOST_LINES: usize = 1_000_000;

/// What the lines of an input are.
#[derive(Clone, Copy, PartialEq, Eq, Debug)]
pub enum Lines {
    /// Frames as bare digits.
    Bare,
    /// Sentences of a receiver, which sends others among them.
    Sentences,
}

impl Lines {
    /// The names of the columns.
    fn heading(self) -> &'static str {
        match self {
            Lines::Bare => "line answer place dc slots value",
            Lines::Sentences => "line answer place dc slots value satellite",
        }
    }

    /// A dash for each column behind the first.
    fn dashes(self) -> String {
        " -".repeat(self.heading().split(' ').count() - 1)
    }
}

/// Reads lines from `input` to its end and writes the listing to `output`.
pub fn list(lines: Lines, mut input: impl BufRead, mut output: impl Write) -> Result<()> {
    writeln!(output, "{}", lines.heading())?;
    let mut line = Vec::new();
    for number in 1..=MOST_LINES {
        line.clear();
        if input.read_until(b'\n', &mut line)? == 0 {
            return output.flush();
        }
        // The last line may lack its line feed.
        let unended = line.strip_suffix(b"\n").unwrap_or(&line);
        write!(output, "{number}")?;
        match lines {
            Lines::Bare => write_columns(&mut output, read_line(unended))?,
            Lines::Sentences => write_sentence_columns(&mut output, unended)?,
        }
        writeln!(output)?;
    }
    if !input.fill_buf()?.is_empty() {
        writeln!(output, "cut{}", lines.dashes())?;
    }
    output.flush()
}

/// What is said of a line of a receiver: nothing but dashes of another's sentence,
/// and else what reading says, with the satellite behind it. The line feed is part of
/// a sentence, and is read as if the last line had it too.
fn write_sentence_columns(output: &mut impl Write, unended: &[u8]) -> Result<()> {
    if unended.starts_with(b"$") && !unended.starts_with(HEAD) {
        return write!(output, "{}", Lines::Sentences.dashes());
    }
    let read = read_sentence(&[unended, b"\n"].concat());
    write_columns(output, read.map(|received| received.record))?;
    match read {
        Ok(received) => write!(output, " {}", received.satellite),
        Err(_) => write!(output, " -"),
    }
}

/// The columns from the answer to the value.
fn write_columns(
    output: &mut impl Write,
    answer: std::result::Result<Record, Refusal>,
) -> Result<()> {
    match answer {
        Ok(record) => {
            let category = record.body.category();
            let dc = category.map_or(0, Category::code);
            if category.is_some_and(|category| slot_layout(category).count > 0) {
                write!(output, " 0 - {dc} {} -", slots_used(&record))
            } else {
                write!(output, " 0 - {dc} - -")
            }
        }
        Err(Refusal { number: number @ OUT_OF_RANGE, place, value, .. }) => {
            write!(output, " {number} {place} - - {value}")
        }
        Err(Refusal { number: number @ SLOT_AFTER_EMPTY, place, .. }) => {
            write!(output, " {number} {place} - - -")
        }
        Err(Refusal { number, .. }) => write!(output, " {number} - - - -"),
    }
}
