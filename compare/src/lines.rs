//! Lines of digits, read into the bytes of a record and written from frames,
//! against the reference.

use crate::calls;
use crate::lent::{from_to, refused, Outcome};
use crate::packed::LENGTH;
use crate::reading::{agree_on_record, frame_of};
use crate::values::value_of;
use crate::{door, pattern, tuned, Count};
use reference::answer::Answer;
use reference::generate::{any_frame, any_line, slices};
use reference::line::{line_of_frame, read_line, write_line, DIGITS};
use reference::random::Random;
use reference::samples;

const ANY_LINES: usize = 500_000;
const ANY_FRAMES: usize = 200_000;

/// Lines of every kind that the reference builds, and what is no line.
pub fn any_lines(count: &mut Count) {
    let mut random = Random::new(63);
    for _ in 0..ANY_LINES {
        agree(count, &any_line(&mut random));
    }
}

/// Every byte at every place of a line that is otherwise read.
pub fn characters(count: &mut Count) {
    let frame = frame_of(&samples::hypocenter()[0]);
    for place in 0..DIGITS {
        for character in 0..=255 {
            let mut line = line_of_frame(&frame);
            line[place] = character;
            agree(count, &line);
        }
    }
}

/// Lines of 0 to 300 digits, and a very long one.
pub fn line_lengths(count: &mut Count) {
    for length in (0..=300).chain([1_000_000]) {
        agree(count, &vec![b'0'; length]);
        agree(count, &vec![b'\r'; length]);
    }
}

/// A buffer for the record of another length is 255, whatever the line is. The
/// value is asked of the line alone.
pub fn record_lengths(count: &mut Count) {
    let mut random = Random::new(64);
    for _ in 0..1000 {
        let line = any_line(&mut random);
        for length in [0, LENGTH - 1, LENGTH + 1] {
            let asked = value_of(read_line(&line));
            let expected = Outcome { asked, ..refused(255, &pattern(length)) };
            count.same(&line, &record_of(&line, length), &expected);
        }
    }
}

/// Frames of every kind, written to buffers that are too short, just long
/// enough and longer.
pub fn written(count: &mut Count) {
    let mut random = Random::new(65);
    for _ in 0..ANY_FRAMES {
        let frame = any_frame(&mut random);
        let any = random.below(130);
        let length = random.pick(&[DIGITS, DIGITS, DIGITS - 1, DIGITS + 1, 0, any]);
        agree_on_writing(count, &frame, length);
    }
    for slice in slices(&mut random) {
        agree_on_writing(count, &slice, DIGITS);
    }
}

/// What was written as a line is read as its frame is.
pub fn there_and_back(count: &mut Count) {
    let mut random = Random::new(66);
    for _ in 0..ANY_FRAMES {
        let frame = any_frame(&mut random);
        let mut line = [0; DIGITS];
        if door::write_line(&frame, &mut line) == Answer::FINE {
            let expected = calls::read(&frame, &pattern(LENGTH));
            count.same(&frame, &record_of(&line, LENGTH), &expected);
        }
    }
}

/// Answer, value, place and every field of a line.
pub fn agree(count: &mut Count, line: &[u8]) {
    tuned::agree_on_line(count, line);
    agree_on_record(count, line, record_of(line, LENGTH), read_line(line));
}

/// What the proved reader does with a line.
fn record_of(line: &[u8], length: usize) -> Outcome {
    calls::read_line(line, &pattern(length))
}

fn agree_on_writing(count: &mut Count, frame: &[u8], length: usize) {
    let ours = from_to(door::write_line, frame, &pattern(length));
    let mut theirs = pattern(length);
    let their_answer = write_line(frame, &mut theirs);
    let their_answer = their_answer.map_or_else(Answer::from, |()| Answer::FINE);
    count.same(frame, &ours, &Outcome::new(their_answer, theirs));
}
