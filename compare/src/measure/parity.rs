//! The time of one parity: the proved one through the static library against a
//! plain Rust version that takes one bit at a time, one that takes a byte at a
//! time by a table, the tuned one, which takes sixteen, and RTKLIB's where it is
//! installed. All of them work on the frames of one file, which is read before any
//! clock starts.

use super::rtklib::Rtklib;
use super::turns::{compare, Told, Way};
use super::{file_of_frames, FRAMES, ROUNDS};
use crate::door;
use reference::bits::{bit, get, set_bit, Frame};
use reference::line::frame_of_line;
use reference::parity::{by_bits, by_table};
use reference::tuned;
use std::fs::read;
use std::hint::black_box;

/// The bits that the parity is taken over.
const COVERED: usize = 226;

/// RTKLIB takes whole bytes, so it is given the covered bits behind six zero bits:
/// 232 bits are 29 bytes. The register starts from zero, so zeros in front do not
/// count. RTKLIB lays out such messages in this way itself, and here it is done
/// before the clock starts.
const ZEROS_IN_FRONT: usize = 6;
const WHOLE_BYTES: usize = (ZEROS_IN_FRONT + COVERED) / 8;

type Parity<'a> = Box<dyn Fn(&Frame) -> u32 + 'a>;

pub fn measure() {
    let frames = frames_of_file();
    let laid_out: Vec<Frame> = frames.iter().map(in_whole_bytes).collect();
    let mut ways = vec![
        way("proved", &frames, &frames, Box::new(proved)),
        way("one bit at a time (the yardstick)", &frames, &frames, Box::new(one_bit_at_a_time)),
        way("one byte at a time by a table", &frames, &frames, Box::new(by_a_table)),
        way("tuned, sixteen bytes at a time", &frames, &frames, Box::new(tuned)),
    ];
    match Rtklib::load() {
        Err(reason) => println!("RTKLIB is not installed, or cannot be loaded: {reason}"),
        Ok(rtklib) => ways.push(way(
            "RTKLIB, on 29 bytes laid out before the clock starts",
            &frames,
            &laid_out,
            Box::new(move |laid_out| by_rtklib(&rtklib, laid_out)),
        )),
    }
    compare("parity of one frame", Told::OneCall { of: FRAMES }, ROUNDS, ways);
}

/// One way to the parity, with the frames as it takes them. Each frame of the file
/// carries its parity, which the reference gave it by long division; every way has
/// to come to the same.
fn way<'a>(
    name: &'static str,
    frames: &[Frame],
    taken: &'a [Frame],
    parity: Parity<'a>,
) -> Way<'a> {
    for (frame, taken) in frames.iter().zip(taken) {
        assert_eq!(u64::from(parity(taken)), get(frame, COVERED, 24), "{name} on {frame:02X?}");
    }
    let all = move || {
        for frame in taken {
            black_box(parity(black_box(frame)));
        }
    };
    Way::new(name, all)
}

fn frames_of_file() -> Vec<Frame> {
    let file = read(file_of_frames(FRAMES)).expect("the file of frames cannot be read");
    let lines = file.split(|byte| *byte == b'\n').filter(|line| !line.is_empty());
    let frames = lines.map(|line| frame_of_line(line).expect("the file has lines of digits"));
    let frames: Vec<Frame> = frames.collect();
    assert_eq!(frames.len(), FRAMES);
    frames
}

/// The covered bits behind the zeros, in the first 29 of these bytes.
fn in_whole_bytes(frame: &Frame) -> Frame {
    let mut bytes = [0; 32];
    for position in 0..COVERED {
        set_bit(&mut bytes, ZEROS_IN_FRONT + position, bit(frame, position));
    }
    bytes
}

// None of the following is put into the loop that calls it. What a library holds
// cannot be, and all of them are to be called in the same manner.

#[inline(never)]
fn proved(frame: &Frame) -> u32 {
    door::parity(frame).expect("a frame has 32 bytes")
}

#[inline(never)]
fn one_bit_at_a_time(frame: &Frame) -> u32 {
    by_bits::parity(frame, COVERED)
}

#[inline(never)]
fn by_a_table(frame: &Frame) -> u32 {
    by_table::parity(frame, COVERED)
}

#[inline(never)]
fn tuned(frame: &Frame) -> u32 {
    tuned::parity(frame)
}

#[inline(never)]
fn by_rtklib(rtklib: &Rtklib, laid_out: &Frame) -> u32 {
    rtklib.parity(&laid_out[..WHOLE_BYTES])
}
