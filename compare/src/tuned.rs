//! The tuned functions of the reference, against its plain ones. They are there
//! for times to be measured by, and that only says something if they do the same;
//! so they are compared on the inputs that the proved functions are compared on.

pub mod listings;
mod stores;

pub use stores::{agree_on_taking, TunedStores};

use crate::lent::Outcome;
use crate::packed::{packed, Bytes};
use crate::{pattern, Count};
use reference::answer::Answer;
use reference::bits::Frame;
use reference::line;
use reference::meaning::slots_used;
use reference::record::{Category, Record, Refusal};
use reference::tuned::{self, Look};

/// Looks at a frame and reads it. A slice of another length is none.
pub fn agree_on_reading(count: &mut Count, frame: &[u8], plain: &Result<Record, Refusal>) {
    let Ok(frame) = <&Frame>::try_from(frame) else {
        return;
    };
    let mut record: Bytes = buffer();
    let answer = tuned::read(frame, &mut record);
    let expected = match plain {
        Ok(record) => (look_of(record), Answer::FINE, packed(record)),
        Err(refusal) => (refused_look(refusal), Answer::from(*refusal), buffer()),
    };
    count.same_tuned(frame, &(tuned::look(frame), answer, record), &expected);
}

/// The frame of a line.
pub fn agree_on_line(count: &mut Count, line: &[u8]) {
    count.same_tuned(line, &tuned::frame_of_line(line), &line::frame_of_line(line).ok());
}

/// Writes record bytes to a frame, where both have the one length that they may
/// have.
pub fn agree_on_writing(count: &mut Count, record: &[u8], expected: &Outcome) {
    let record = <&Bytes>::try_from(record);
    let (Ok(record), Ok(frame)) = (record, <&Frame>::try_from(&expected.lent[..])) else {
        return;
    };
    let mut written: Frame = buffer();
    let answer = tuned::write(record, &mut written);
    count.same_tuned(record, &(answer, written), &(expected.answer, *frame));
}

/// What a listing says of a record that was read.
fn look_of(record: &Record) -> Look {
    let category = record.body.category().map_or(0, Category::code) as u8;
    Look { category, slots: slots_used(record) as u8, ..Look::default() }
}

fn refused_look(refusal: &Refusal) -> Look {
    let &Refusal { number, place, value, .. } = refusal;
    Look { answer: number, place, value, ..Look::default() }
}

/// What a buffer holds before a call.
fn buffer<const LENGTH: usize>() -> [u8; LENGTH] {
    pattern(LENGTH).try_into().expect("a pattern has the length that is asked for")
}
