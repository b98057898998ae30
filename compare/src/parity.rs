//! The parity, against the reference in four ways: by long division as on paper,
//! one bit at a time, one byte at a time and, in the tuned reader, sixteen.
//!
//! A parity may take the bits of a frame in groups, from the front or from the
//! back, and look each of them up in one table or in one of many. Wherever a group
//! begins, the inputs here give it every value, so that a wrong entry is met: a
//! group of up to twelve bits with nothing but zeros beside it, and one of up to
//! sixteen bits among others. Wider groups are met with one, two and neighbouring
//! bits, and at random.

use crate::reading::frame_of;
use crate::{door, Count};
use reference::bits::{set, set_bit, Frame};
use reference::generate::{plain_frames, random_bytes, slice_of_length};
use reference::parity::{by_bits, by_table, parity};
use reference::random::Random;
use reference::{samples, tuned};

const RANDOM_FRAMES: usize = 200_000;
const NEIGHBOURED_FRAMES: usize = 200;

/// The bits of a frame in memory, padding included.
const FRAME_BITS: usize = 256;

const FRAME_LENGTH: usize = 32;

/// The bits that the parity is taken over.
const COVERED: usize = 226;

/// The bits of a window, of which every value is tried with zeros beside it.
const WINDOW: usize = 12;

/// The most bits of a pattern that is repeated.
const LONGEST_PATTERN: usize = 16;

type Parity = fn(&Frame) -> u32;

/// The reference's ways to the parity: each has to give what the proved one gives.
const WAYS: [Parity; 4] = [
    |frame| parity(frame, COVERED),
    |frame| by_bits::parity(frame, COVERED),
    |frame| by_table::parity(frame, COVERED),
    tuned::parity,
];

/// Frames of zeros, of ones and with a single one, random frames, and those that
/// differ from a random frame in one bit.
pub fn any_frames(count: &mut Count) {
    let mut random = Random::new(24);
    for frame in plain_frames() {
        agree(count, &frame);
    }
    for _ in 0..RANDOM_FRAMES {
        agree(count, &random_frame(&mut random));
    }
    for _ in 0..NEIGHBOURED_FRAMES {
        neighbours(count, random_frame(&mut random));
    }
}

/// Every byte at each of the 32 places.
pub fn every_byte(count: &mut Count) {
    let mut random = Random::new(226);
    for place in 0..FRAME_LENGTH {
        every_value(count, &mut random, 8 * place, 8);
    }
}

/// Every twelve bits wherever they begin, so also every group of fewer bits.
pub fn every_window(count: &mut Count) {
    let mut random = Random::new(227);
    for first in 0..=FRAME_BITS - WINDOW {
        every_value(count, &mut random, first, WINDOW);
    }
}

/// Every pattern of 1 to 16 bits, repeated through the frame, and the bits of a
/// random frame turned by it. Where a pattern of sixteen bits takes every value,
/// so do any sixteen bits of the frame, since the pattern stands there from one
/// bit or another on. Frames of ones alone and of ones and zeros in turn are
/// among them.
pub fn every_pattern(count: &mut Count) {
    let mut random = Random::new(228);
    for width in 1..=LONGEST_PATTERN {
        let turned = random_frame(&mut random);
        for pattern in 0..1 << width {
            let frame = repeated(pattern, width);
            agree(count, &frame);
            agree(count, &std::array::from_fn(|place| frame[place] ^ turned[place]));
        }
    }
}

/// Every two bits set with the others clear, and clear with the others set.
pub fn every_two_bits(count: &mut Count) {
    for one in 0..FRAME_BITS {
        for other in 0..one {
            let mut frame = [0; FRAME_LENGTH];
            set_bit(&mut frame, one, true);
            set_bit(&mut frame, other, true);
            with_opposite(count, frame);
        }
    }
}

/// All bits from any one to any other set with the others clear, and clear with
/// the others set.
pub fn every_run(count: &mut Count) {
    for first in 0..FRAME_BITS {
        let mut frame = [0; FRAME_LENGTH];
        for last in first..FRAME_BITS {
            set_bit(&mut frame, last, true);
            with_opposite(count, frame);
        }
    }
}

/// The reports of document 004.
pub fn document_004(count: &mut Count) {
    samples::all().iter().for_each(|record| agree(count, &frame_of(record)));
}

/// Every slice that is no frame is told from one, whatever it holds.
pub fn slice_lengths(count: &mut Count) {
    let mut random = Random::new(229);
    for length in (0..=40).chain([64]).filter(|length| *length != FRAME_LENGTH) {
        let of_frame = slice_of_length(&mut random, length);
        for slice in [vec![0xFF; length], random_bytes(&mut random, length), of_frame] {
            count.same(&slice, &door::parity(&slice), &None);
        }
    }
}

fn random_frame(random: &mut Random) -> Frame {
    std::array::from_fn(|_| random.byte())
}

/// A frame that repeats the lowest `width` bits of `pattern` to its end.
fn repeated(pattern: u64, width: usize) -> Frame {
    let mut frame = [0; FRAME_LENGTH];
    for position in 0..FRAME_BITS {
        set_bit(&mut frame, position, pattern >> (position % width) & 1 == 1);
    }
    frame
}

/// Every number in `width` bits from `first` on, with zeros beside them and again
/// in a random frame.
fn every_value(count: &mut Count, random: &mut Random, first: usize, width: usize) {
    for around in [[0; FRAME_LENGTH], random_frame(random)] {
        for value in 0..1 << width {
            let mut frame = around;
            set(&mut frame, first, width, value);
            agree(count, &frame);
        }
    }
}

/// A frame and the 256 frames that differ from it in one bit.
fn neighbours(count: &mut Count, frame: Frame) {
    agree(count, &frame);
    for position in 0..FRAME_BITS {
        let mut neighbour = frame;
        neighbour[position / 8] ^= 0x80 >> (position % 8);
        agree(count, &neighbour);
    }
}

/// A frame and the one that differs from it in every bit.
fn with_opposite(count: &mut Count, frame: Frame) {
    agree(count, &frame);
    agree(count, &frame.map(|byte| !byte));
}

/// Where they differ, it is seen from which of the four ways the proved parity
/// differs.
fn agree(count: &mut Count, frame: &Frame) {
    let ours = door::parity(frame);
    let theirs = WAYS.map(|parity| Some(parity(frame)));
    count.same(frame, &[ours; WAYS.len()], &theirs);
}
