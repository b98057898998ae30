//! The calls that may refuse with a value, on copies of what is lent to them. The
//! value is asked for beside each of them, whatever the call answers.

use crate::door;
use crate::lent::{from_to, only_read, to_from, Outcome};
use reference::answer::Answer;

/// Reads a frame into a copy of the buffer.
pub fn read(frame: &[u8], buffer: &[u8]) -> Outcome {
    asking(door::read, door::read_value, frame, buffer)
}

/// Reads a line into a copy of the buffer.
pub fn read_line(line: &[u8], buffer: &[u8]) -> Outcome {
    asking(door::read_line, door::read_line_value, line, buffer)
}

/// Reads a sentence into a copy of the buffer.
pub fn read_sentence(sentence: &[u8], buffer: &[u8]) -> Outcome {
    asking(door::read_sentence, door::read_sentence_value, sentence, buffer)
}

/// Writes a frame as the sentence of a satellite to a copy of the buffer.
pub fn write_sentence(satellite: u32, frame: &[u8], buffer: &[u8]) -> Outcome {
    let call = |frame: &[u8], buffer: &mut [u8]| door::write_sentence(satellite, frame, buffer);
    asking(call, |frame| door::write_sentence_value(satellite, frame), frame, buffer)
}

/// Writes the record of the bytes to a copy of the frame.
pub fn write(record_bytes: &[u8], frame: &[u8]) -> Outcome {
    let value = |record_bytes: &[u8]| door::write_value(record_bytes, frame.len());
    asking(door::write, value, record_bytes, frame)
}

/// Opens a store in a copy of the buffer.
pub fn open(name: &[u8], store: &[u8]) -> Outcome {
    asking(door::open, door::open_value, name, store)
}

/// Takes a record into a copy of the store.
pub fn take(store: &[u8], record_bytes: &[u8]) -> Outcome {
    let asked = take_value(store, record_bytes);
    Outcome { asked, ..to_from(door::take, store, record_bytes) }
}

/// The value is asked for before the record is taken.
pub fn take_value(store: &[u8], record_bytes: &[u8]) -> u64 {
    only_read(store, |store| only_read(record_bytes, |record| door::take_value(store, record)))
}

fn asking(
    call: impl Fn(&[u8], &mut [u8]) -> Answer,
    value: impl Fn(&[u8]) -> u64,
    from: &[u8],
    to: &[u8],
) -> Outcome {
    let asked = only_read(from, value);
    Outcome { asked, ..from_to(call, from, to) }
}
