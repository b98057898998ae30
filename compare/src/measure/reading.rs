//! The time of one reading: the proved reader through the static library against
//! the plain and the tuned reader of the reference, on the same valid frames. The
//! plain one builds a record, the other two its bytes.

use super::turns::{compare, Told, Way};
use super::{valid_frames, FRAMES, ROUNDS};
use crate::door;
use crate::packed::LENGTH;
use reference::answer::Answer;
use reference::bits::Frame;
use reference::{read, tuned};
use std::hint::black_box;

pub fn measure() {
    let frames = valid_frames();
    let over_all = |read: fn(&Frame)| {
        let frames = &frames;
        move || frames.iter().for_each(read)
    };
    let ways = vec![
        Way::new("proved", over_all(read_proved)),
        Way::new("plain", over_all(read_plain)),
        Way::new("tuned", over_all(read_tuned)),
    ];
    compare("reading one frame", Told::OneCall { of: FRAMES }, ROUNDS, ways);
}

fn read_proved(frame: &Frame) {
    let mut bytes = [0; LENGTH];
    let answer = door::read(black_box(frame), &mut bytes);
    assert_eq!(answer, Answer::FINE);
    black_box(&bytes);
}

fn read_plain(frame: &Frame) {
    let record = read::read(black_box(frame)).expect("the frame is valid");
    black_box(&record);
}

fn read_tuned(frame: &Frame) {
    let mut bytes = [0; LENGTH];
    let answer = tuned::read(black_box(frame), &mut bytes);
    assert_eq!(answer, Answer::FINE);
    black_box(&bytes);
}
