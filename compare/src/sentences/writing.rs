//! Frames that are written as sentences, and all that is refused instead.

use super::{agree_on_writing, frames_with_values, sample};
use crate::reading::frame_of;
use crate::Count;
use reference::generate::{any_frame, slices};
use reference::random::Random;
use reference::samples;
use reference::sentence::{LENGTH, SATELLITES};

const ANY_FRAMES: usize = 300_000;

/// Longer than a sentence by some bytes.
const LONGEST_BUFFER: usize = 90;

/// Frames of every kind for satellites of every kind, written to buffers that are too
/// short, just long enough and longer.
pub fn written(count: &mut Count) {
    let mut random = Random::new(155);
    for _ in 0..ANY_FRAMES {
        let frame = any_frame(&mut random);
        let any = random.below(2 * LENGTH);
        let length = random.pick(&[LENGTH, LENGTH, LENGTH, LENGTH - 1, LENGTH + 1, 0, any]);
        let satellite = any_satellite(&mut random);
        agree_on_writing(count, satellite, &frame, length);
    }
    for slice in slices(&mut random) {
        agree_on_writing(count, any_satellite(&mut random), &slice, LENGTH);
    }
}

/// Every number up to 300, those at the ends, and those that look like a listed one
/// where some of their bytes or digits alone are seen: for a frame that is read, for
/// frames that are not, and for a buffer that is too short.
pub fn satellite_numbers(count: &mut Count) {
    let mut refused = sample();
    refused[0] ^= 1;
    for satellite in (0..=300).chain(look_alikes()) {
        for length in [LENGTH, LENGTH + 5, LENGTH - 1, 0] {
            agree_on_writing(count, satellite, &sample(), length);
            agree_on_writing(count, satellite, &refused, length);
            agree_on_writing(count, satellite, &refused[1..], length);
        }
    }
}

/// Buffers of 0 to 90 bytes for each satellite and a report of each kind.
pub fn buffer_lengths(count: &mut Count) {
    for record in samples::all() {
        for length in 0..=LONGEST_BUFFER {
            for satellite in SATELLITES {
                agree_on_writing(count, satellite.into(), &frame_of(&record), length);
            }
            agree_on_writing(count, 59, &frame_of(&record), length);
        }
    }
}

/// Frames with each field at its bounds and with two fields out of range, for a
/// satellite that is listed and for one that is not, which has no value to tell.
pub fn written_values(count: &mut Count) {
    let mut random = Random::new(156);
    for frame in frames_with_values(&mut random) {
        for satellite in [random.pick(&SATELLITES).into(), any_satellite(&mut random)] {
            for length in [LENGTH, LENGTH - 1] {
                agree_on_writing(count, satellite, &frame, length);
            }
        }
    }
}

/// A listed satellite for the most part.
fn any_satellite(random: &mut Random) -> u32 {
    match random.below(8) {
        0 => random.below(100) as u32,
        1 => random.next_number() as u32,
        2 => random.pick(&look_alikes()),
        _ => random.pick(&SATELLITES).into(),
    }
}

/// Numbers of which a part is a listed satellite, and the ends of what 32 bits hold.
fn look_alikes() -> Vec<u32> {
    let mut numbers = vec![u32::MAX, u32::MAX - 1, 1 << 31, (1 << 31) - 1];
    for satellite in SATELLITES.map(u32::from) {
        for bit in 6..u32::BITS {
            numbers.push((1 << bit) + satellite);
        }
        for bytes in [8, 16, 24] {
            numbers.push(satellite << bytes);
        }
        // Its PRN, which table 4.3.1-1 gives beside it, and its digits.
        let [tens, ones] = [satellite / 10, satellite % 10].map(|digit| u32::from(b'0') + digit);
        numbers.extend([satellite + 128, tens << 8 | ones, ones << 8 | tens]);
        numbers.extend([satellite.wrapping_neg(), !satellite, 100 + satellite, 10 * satellite]);
    }
    numbers
}
