//! The reader, the writer, the page store and the listing once more, written for
//! speed: the yardstick for how fast another implementation is, as the plain ones
//! are for whether it is right. It answers as they do on every input.
//!
//! What makes it fast. A frame is four words, and every field is taken by shifts
//! whose counts the compiler knows. A category is described once, as a walk over
//! its fields from the lowest bit to the highest, and a walk ends at the first
//! fault; what a step of it does, for looking, reading or writing, is put in by
//! the compiler (`walk`). The parity takes sixteen bytes at once. A listing works
//! on the bytes of its input where they are and takes no memory for a line.

mod categories;
mod digits;
mod listing;
mod parity;
mod record_bytes;
mod rows;
mod store;
mod walk;
mod words;

pub use digits::frame_of_line;
pub use listing::list;
pub use parity::parity;
pub use record_bytes::{RecordBytes, RECORD_BYTES};
pub use store::{merge, open, report, take, text};

use crate::answer::Answer;
use crate::bits::Frame;
use crate::record::{Refusal, PREAMBLES};
use walk::{FromFrame, FromRecord, IntoFrame, IntoRecord};
use words::Words;

/// What a listing says of a frame: 0 or the number of the refusal, its place and
/// value, and of a frame that was read its category and how many slots are used.
/// What there is not is 0.
#[derive(Clone, Copy, PartialEq, Eq, Debug, Default)]
pub struct Look {
    pub answer: u8,
    pub place: u8,
    pub category: u8,
    pub slots: u8,
    pub value: u64,
}

/// Judges a frame without building its record.
pub fn look(frame: &Frame) -> Look {
    let words = Words::of_frame(frame);
    let seen = envelope(frame, &words).and_then(|category| {
        let slots = categories::walk(&mut FromFrame(&words), category)?;
        Ok((category, slots))
    });
    match seen {
        Ok((category, slots)) => Look { category, slots, ..Look::default() },
        Err(Refusal { number, place, value, .. }) => {
            Look { answer: number, place, value, ..Look::default() }
        }
    }
}

/// Reads a frame into the bytes of a record, which stay where it is refused.
pub fn read(frame: &Frame, record: &mut RecordBytes) -> Answer {
    let words = Words::of_frame(frame);
    let mut built = [0; RECORD_BYTES];
    let seen = envelope(frame, &words).and_then(|category| {
        built[record_bytes::CATEGORY] = category;
        built[record_bytes::PREAMBLE] = frame[0];
        built[record_bytes::RESERVED] = words.get(220, 6) as u8;
        categories::walk(&mut IntoRecord { from: &words, to: &mut built }, category)
    });
    told(seen.map(|_| *record = built))
}

/// Writes the record of the bytes to a frame, which stays where it is refused.
pub fn write(record: &RecordBytes, frame: &mut Frame) -> Answer {
    let seen = written(record, |category| {
        let mut walk = IntoFrame { from: record, to: Words::default() };
        categories::walk(&mut walk, category)?;
        Ok(walk.to)
    });
    told(seen.map(|words| *frame = sealed(record, words)))
}

/// What writing a record refuses, without writing it.
fn writable(record: &RecordBytes) -> Result<(), Refusal> {
    written(record, |category| categories::walk(&mut FromRecord(record), category).map(drop))
}

/// Refusals 2 to 7 of a frame, or its category.
#[inline(always)]
fn envelope(frame: &Frame, words: &Words) -> Result<u8, Refusal> {
    let category = words.get(17, 4) as u8;
    let refused = if words.get(250, 6) != 0 {
        2
    } else if !PREAMBLES.contains(&frame[0]) {
        3
    } else if !parity::is_right(frame) {
        4
    } else if words.get(8, 6) != 43 {
        5
    } else if words.get(214, 6) != 1 {
        6
    } else if !categories::known(category) {
        7
    } else {
        return Ok(category);
    };
    Err(Refusal::plain(refused))
}

/// The refusals of a writing in their order: what stands in front of the fields,
/// then the fields by a walk, then Reserved, which lies behind all of them. Where
/// there is none, what the walk has come to.
#[inline(always)]
fn written<T>(
    record: &RecordBytes,
    walk: impl FnOnce(u8) -> Result<T, Refusal>,
) -> Result<T, Refusal> {
    let category = record[record_bytes::CATEGORY];
    let reserved = record[record_bytes::RESERVED];
    if !PREAMBLES.contains(&record[record_bytes::PREAMBLE]) {
        return Err(Refusal::plain(3));
    }
    if !categories::known(category) {
        return Err(Refusal::plain(7));
    }
    if record_bytes::has_something_unused(record, category) {
        return Err(Refusal::plain(11));
    }
    let walked = walk(category)?;
    if reserved > 63 {
        return Err(Refusal::out_of_range(220, reserved.into()));
    }
    Ok(walked)
}

/// The frame of the fields in the words, with what every frame has around them.
#[inline(always)]
fn sealed(record: &RecordBytes, mut words: Words) -> Frame {
    words.put(0, 8, record[record_bytes::PREAMBLE].into());
    words.put(8, 6, 43);
    words.put(17, 4, record[record_bytes::CATEGORY].into());
    words.put(214, 6, 1);
    words.put(220, 6, record[record_bytes::RESERVED].into());
    words.put(226, 24, parity::of_words(&words).into());
    words.to_frame()
}

fn told(seen: Result<(), Refusal>) -> Answer {
    seen.map_or_else(Answer::from, |()| Answer::FINE)
}
