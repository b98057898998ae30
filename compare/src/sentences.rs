//! Sentences of a receiver, read into the bytes of a record and written from frames,
//! against the reference.

mod again;
mod reading;
mod writing;

pub use again::*;
pub use reading::*;
pub use writing::*;

use crate::calls;
use crate::lent::Outcome;
use crate::packed::LENGTH as RECORD_LENGTH;
use crate::reading::{agree_on_answer, frame_of};
use crate::values::{self, faulty_frames};
use crate::{pattern, Count};
use reference::answer::Answer;
use reference::bits::Frame;
use reference::generate::boundary_frames;
use reference::line::line_of_frame;
use reference::random::Random;
use reference::record::{Category, Refusal};
use reference::samples;
use reference::sentence::{read_sentence, write_sentence, Received};

/// What reading a sentence answers where it is read: the satellite.
fn fine(satellite: u8) -> Answer {
    Answer { mark: satellite, ..Answer::FINE }
}

/// Answer, value, place, satellite and every field of a sentence.
fn agree(count: &mut Count, sentence: &[u8]) {
    let theirs = read_sentence(sentence);
    let answered = theirs.map(|Received { satellite, record }| (fine(satellite), record));
    agree_on_answer(count, sentence, record_of(sentence, RECORD_LENGTH), answered);
    note(count, theirs);
}

/// What the proved reader does with a sentence and a buffer of so many bytes.
fn record_of(sentence: &[u8], length: usize) -> Outcome {
    calls::read_sentence(sentence, &pattern(length))
}

/// Answer, value, place and every byte of a buffer to which a frame is written.
fn agree_on_writing(count: &mut Count, satellite: u32, frame: &[u8], length: usize) {
    let mut lent = pattern(length);
    let theirs = write_sentence(satellite, frame, &mut lent);
    let answer = theirs.map_or_else(Answer::from, |()| Answer::FINE);
    let input = [&satellite.to_be_bytes(), frame].concat();
    let ours = calls::write_sentence(satellite, frame, &pattern(length));
    count.same(&input, &ours, &Outcome::new(answer, lent));
    values::note(count, answer);
    note(count, theirs);
}

/// Notes what a sentence was refused with, so that none of it is seen never.
fn note<T>(count: &mut Count, theirs: Result<T, Refusal>) {
    count.note(match theirs.map_err(|refusal| refusal.number) {
        Ok(_) => "fine",
        Err(16) => "refused with 16",
        Err(17) => "refused with 17",
        Err(18) => "refused with 18",
        Err(19) => "refused with 19",
        Err(20) => "refused with 20",
        Err(_) => "refused by their frame",
    });
}

/// The first report of document 004.
fn sample() -> Frame {
    frame_of(&samples::hypocenter()[0])
}

/// The digits of a frame in small letters, with every second one small, and in capitals.
fn cases(frame: &Frame) -> [Vec<u8>; 3] {
    let line = line_of_frame(frame).to_vec();
    let mut mixed = line.clone();
    mixed.iter_mut().step_by(2).for_each(|digit| digit.make_ascii_lowercase());
    [line.to_ascii_lowercase(), mixed, line]
}

/// Frames with each field at its bounds and just outside, and with two fields out of
/// range.
fn frames_with_values(random: &mut Random) -> Vec<Frame> {
    let bounds = Category::ALL.into_iter().flat_map(|one| boundary_frames(random, one));
    bounds.chain(faulty_frames()).collect()
}
