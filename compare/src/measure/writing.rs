//! The time of one writing: the proved writer through the static library against
//! the plain and the tuned writer of the reference, on the records of the same
//! valid frames. The plain one is given records, the other two their bytes.

use super::turns::{compare, Told, Way};
use super::{valid_frames, FRAMES, ROUNDS};
use crate::door;
use crate::packed::{packed, Bytes};
use reference::answer::Answer;
use reference::read::read;
use reference::record::Record;
use reference::{tuned, write};
use std::hint::black_box;

pub fn measure() {
    let records: Vec<Record> =
        valid_frames().iter().map(|frame| read(frame).expect("the frame is valid")).collect();
    let bytes: Vec<Bytes> = records.iter().map(packed).collect();
    let ways = vec![
        Way::new("proved", || bytes.iter().for_each(write_proved)),
        Way::new("plain", || records.iter().for_each(write_plain)),
        Way::new("tuned", || bytes.iter().for_each(write_tuned)),
    ];
    compare("writing one record", Told::OneCall { of: FRAMES }, ROUNDS, ways);
}

fn write_proved(record: &Bytes) {
    let mut frame = [0; 32];
    assert_eq!(door::write(black_box(record), &mut frame), Answer::FINE);
    black_box(&frame);
}

fn write_plain(record: &Record) {
    let mut frame = [0; 32];
    write::write(black_box(record), &mut frame).expect("the record is valid");
    black_box(&frame);
}

fn write_tuned(record: &Bytes) {
    let mut frame = [0; 32];
    assert_eq!(tuned::write(black_box(record), &mut frame), Answer::FINE);
    black_box(&frame);
}
