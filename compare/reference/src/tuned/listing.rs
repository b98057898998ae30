//! The listing, over the bytes of the input where they are.

use super::digits::{frame_of_block, frame_of_line, BLOCK};
use super::rows::{put_answer, LineNumber};
use super::{look, Look};
use crate::line::DIGITS;
use crate::listing::MOST_LINES;
use std::io::{ErrorKind, Read, Result, Write};

/// How many bytes are asked for at once, and how many are written at once.
const PORTION: usize = 1 << 16;

/// No row is longer: three numbers of at most 7, 3 and 20 digits, and the rest.
const LONGEST_ROW: usize = 64;

const NO_LINE: Look = Look { answer: 17, place: 0, category: 0, slots: 0, value: 0 };

/// Reads lines from `input` to its end and writes the listing to `output`.
pub fn list(mut input: impl Read, output: impl Write) -> Result<()> {
    let mut listing = Listing::new(output);
    let mut portion = vec![0; PORTION];
    let mut held = 0;
    loop {
        let read = read_some(&mut input, &mut portion[held..])?;
        if read == 0 {
            return listing.end(&portion[..held]);
        }
        let Some(left) = listing.lines(&portion[..held + read])? else {
            return listing.cut();
        };
        // What is left is the beginning of a line. It goes to the front, but not
        // more of it than is needed to see that it is no line of 63 digits: so a
        // line of any length finds room.
        let from = held + read - left;
        held = left.min(BLOCK);
        portion.copy_within(from..from + held, 0);
    }
}

fn read_some(input: &mut impl Read, buffer: &mut [u8]) -> Result<usize> {
    loop {
        match input.read(buffer) {
            Err(error) if error.kind() == ErrorKind::Interrupted => {}
            answer => return answer,
        }
    }
}

struct Listing<O> {
    output: O,
    rows: Vec<u8>,
    number: LineNumber,
    lines_left: usize,
}

impl<O: Write> Listing<O> {
    fn new(output: O) -> Listing<O> {
        let mut rows = Vec::with_capacity(PORTION + LONGEST_ROW);
        rows.extend_from_slice(b"line answer place dc slots value\n");
        Listing { output, rows, number: LineNumber::ZERO, lines_left: MOST_LINES }
    }

    /// Lists the lines that end within these bytes and tells how many bytes are
    /// left behind the last of them; nothing where there are more lines than are
    /// listed.
    fn lines(&mut self, mut bytes: &[u8]) -> Result<Option<usize>> {
        while !bytes.is_empty() {
            if self.lines_left == 0 {
                return Ok(None);
            }
            let Some((look, behind)) = first_line(bytes) else {
                break;
            };
            self.row(&look)?;
            bytes = behind;
        }
        Ok(Some(bytes.len()))
    }

    #[inline(always)]
    fn row(&mut self, look: &Look) -> Result<()> {
        self.lines_left -= 1;
        self.number.count_up();
        self.number.put(&mut self.rows);
        put_answer(&mut self.rows, look);
        if self.rows.len() >= PORTION {
            self.output.write_all(&self.rows)?;
            self.rows.clear();
        }
        Ok(())
    }

    /// The last line may lack its line feed.
    fn end(mut self, last: &[u8]) -> Result<()> {
        if !last.is_empty() {
            self.row(&look_at_line(last))?;
        }
        self.flush()
    }

    fn cut(mut self) -> Result<()> {
        self.rows.extend_from_slice(b"cut - - - - -\n");
        self.flush()
    }

    fn flush(mut self) -> Result<()> {
        self.output.write_all(&self.rows)?;
        self.output.flush()
    }
}

/// What is to be said of the first line, and what stands behind its line feed.
#[inline(always)]
fn first_line(bytes: &[u8]) -> Option<(Look, &[u8])> {
    if let Some((block, behind)) = bytes.split_first_chunk::<BLOCK>() {
        // Nothing needs to be searched where a line feed stands behind 63 digits:
        // none of them is one.
        if block[DIGITS] == b'\n' {
            if let Some(frame) = frame_of_block(block) {
                return Some((look(&frame), behind));
            }
        }
    }
    let end = line_feed(bytes)?;
    Some((look_at_line(&bytes[..end]), &bytes[end + 1..]))
}

fn look_at_line(line: &[u8]) -> Look {
    frame_of_line(line).map_or(NO_LINE, |frame| look(&frame))
}

/// Where the first line feed stands. Eight bytes are asked at once whether one of
/// them is a line feed, which is made zero for that: where one is taken from each
/// byte, a zero is what turns its highest bit on.
fn line_feed(bytes: &[u8]) -> Option<usize> {
    const ONES: u64 = u64::MAX / 255;
    const LINE_FEEDS: u64 = ONES * b'\n' as u64;
    let (eights, _) = bytes.as_chunks();
    let has_line_feed = |&eight: &[u8; 8]| {
        let word = u64::from_ne_bytes(eight) ^ LINE_FEEDS;
        word.wrapping_sub(ONES) & !word & (ONES << 7) != 0
    };
    let whole = eights.iter().position(has_line_feed).unwrap_or(eights.len()) * 8;
    let within = bytes[whole..].iter().position(|&byte| byte == b'\n')?;
    Some(whole + within)
}
