//! One field of a frame, against the reference's reading of one bit after the
//! other, and what is no field of a frame, which is read as 0.

use crate::lent::only_read;
use crate::reading::frame_of;
use crate::{door, Count};
use reference::bits::{get, Frame};
use reference::fields::{fields_and_parts, Field, RESERVED};
use reference::generate::{plain_frames, random_bytes, slice_of_length};
use reference::parity::parity;
use reference::random::Random;
use reference::record::{Category, Record};
use reference::samples;
use reference::write::{placed, Placed};
use std::collections::BTreeSet;

const RANDOM_FRAMES: usize = 50;
const FRAME_LENGTH: usize = 32;

/// The bits of a frame in memory, padding included.
const FRAME_BITS: usize = 256;

/// The widest field that is read. Wherever it begins, it lies in eight bytes; one
/// that is a bit wider can reach into a ninth.
const WIDEST: usize = 57;

/// The most bits that the answer could hold.
const ANSWER_BITS: usize = 64;

/// The longest slice, twice as long as a frame.
const LONGEST: usize = 64;

/// Every place in a frame and the next byte's, with every width, on frames whose
/// bits show where each of them goes.
pub fn every_place(count: &mut Count) {
    let mut random = Random::new(25);
    for frame in plain_frames() {
        agree_up_to(count, &frame, FRAME_BITS + 8);
    }
    for _ in 0..RANDOM_FRAMES {
        agree_up_to(count, &random_bytes(&mut random, FRAME_LENGTH), FRAME_BITS + 8);
    }
}

/// Slices of which only those of 32 bytes are frames. The places go beyond the
/// longest, so that fields lie in a slice and in a frame, in one of them alone and
/// in neither. Of ones alone nothing could be read unseen.
pub fn slice_lengths(count: &mut Count) {
    let mut random = Random::new(26);
    for length in (0..=40).chain([LONGEST]) {
        agree_up_to(count, &vec![0xFF; length], 8 * LONGEST + 8);
        agree_up_to(count, &random_bytes(&mut random, length), 8 * LONGEST + 8);
        agree_up_to(count, &slice_of_length(&mut random, length), 8 * LONGEST + 8);
    }
}

/// Every two of the numbers near and far as place and width.
pub fn far_beyond(count: &mut Count) {
    let mut random = Random::new(27);
    let numbers = near_and_far();
    for frame in [vec![0xFF; FRAME_LENGTH], random_bytes(&mut random, FRAME_LENGTH)] {
        for &first in &numbers {
            for &width in &numbers {
                agree(count, &frame, first, width);
            }
        }
    }
}

/// The fields of all categories on every frame of document 004, whatever its own
/// category is, and the values of every report one by one.
pub fn document_004(count: &mut Count) {
    for record in samples::all() {
        let frame = frame_of(&record);
        for Field { first, width, .. } in Category::ALL.into_iter().flat_map(fields_and_parts) {
            agree(count, &frame, first, width);
        }
        for Placed { first, width, value } in known_values(&record, &frame) {
            same(count, &frame, first, width, value);
            count.note("known beforehand");
        }
    }
}

/// The numbers near every power of two, and those that add up with them to one
/// more than the greatest number. So there are two whose sum runs over and then
/// seems to end in the frame, and some that seem to lie there where only their low
/// bits are seen.
fn near_and_far() -> BTreeSet<usize> {
    let mut numbers = BTreeSet::new();
    for power in (0..usize::BITS).map(|bit| 1_usize << bit) {
        for step in [0, 1, 8, WIDEST, WIDEST + 1, 200, FRAME_BITS] {
            let (above, below) = (power.wrapping_add(step), power.wrapping_sub(step));
            numbers.extend([above, below, above.wrapping_neg(), below.wrapping_neg()]);
        }
    }
    numbers
}

/// What the frame of a record holds, told from the record: no field of it is read
/// to know this, but for the parity, which follows from all the others.
fn known_values(record: &Record, frame: &Frame) -> Vec<Placed> {
    let category = record.body.category().expect("a sample has a category");
    let common = [
        (0, 8, record.preamble.into()),
        (8, 6, 43),
        (17, 4, category.code()),
        (214, 6, 1),
        (RESERVED.first, RESERVED.width, record.reserved.into()),
        (226, 24, parity(frame, 226).into()),
        (250, 6, 0),
    ];
    let mut all = placed(record, category);
    all.extend(common.map(|(first, width, value)| Placed { first, width, value }));
    let bits: usize = all.iter().map(|known| known.width).sum();
    assert_eq!(bits, FRAME_BITS, "a field of the frame was left out");
    all
}

/// Every place up to the last, with every width up to that of the answer.
fn agree_up_to(count: &mut Count, bytes: &[u8], last: usize) {
    for first in 0..=last {
        for width in 0..=ANSWER_BITS {
            agree(count, bytes, first, width);
        }
    }
}

fn agree(count: &mut Count, bytes: &[u8], first: usize, width: usize) {
    let (kind, expected) = told(bytes, first, width);
    same(count, bytes, first, width, expected);
    count.note(kind);
}

/// What kind of field it is, and the number that is to be read.
fn told(bytes: &[u8], first: usize, width: usize) -> (&'static str, u64) {
    let Ok(frame) = <&Frame>::try_from(bytes) else {
        return ("of a slice that is no frame", 0);
    };
    match first.checked_add(width) {
        None => ("with an end that no number holds", 0),
        Some(end) if end > FRAME_BITS => ("that end beyond the frame", 0),
        Some(_) if width > WIDEST => ("that are too wide", 0),
        Some(_) => ("in the frame", get(frame, first, width)),
    }
}

/// Where the two differ, place and width are shown behind the slice, as the bytes
/// of two numbers.
fn same(count: &mut Count, bytes: &[u8], first: usize, width: usize, expected: u64) {
    let ours = only_read(bytes, |bytes| door::one_field(bytes, first, width));
    let input = [bytes, &first.to_be_bytes(), &width.to_be_bytes()].concat();
    count.same(&input, &ours, &expected);
}
