//! Lines for the line reader: of frames of every kind, and what users send
//! instead.

use super::{any_category, any_frame, random_bytes, valid_frame};
use crate::line::{line_of_frame, DIGITS};
use crate::random::Random;

/// Characters next to the digits, and others that a careless reader takes for
/// one or drops.
pub(super) const NO_DIGITS: &[u8] = b"/:@G`gxX+-., \t\r\n\0\x0B\x7F\x80\xB0\xC1\xE6\xFF";

/// A line of any kind this module knows, without its line feed for the most
/// part.
pub fn any_line(random: &mut Random) -> Vec<u8> {
    match random.below(12) {
        0 | 1 => valid_line(random),
        2 | 3 => any_frame_line(random),
        4 => padded_line(random),
        5 => digits_line(random),
        6 => no_digit_line(random),
        7 => length_line(random),
        8 => ended_line(random),
        9 => sentence_line(random),
        10 => full_width_line(random),
        _ => binary_line(random),
    }
}

/// A line that must be read, in capitals, small letters or both.
pub fn valid_line(random: &mut Random) -> Vec<u8> {
    let category = any_category(random);
    let line = line_of_frame(&valid_frame(random, category));
    any_case(random, &line)
}

/// The line of a frame of any kind; a slice of another length is cut or
/// filled up to a frame.
pub fn any_frame_line(random: &mut Random) -> Vec<u8> {
    let mut bytes = any_frame(random);
    bytes.resize(32, 0);
    let frame = bytes.try_into().expect("it has 32 bytes");
    any_case(random, &line_of_frame(&frame))
}

/// A valid line with any last digit, of which one in four is the right one.
pub fn padded_line(random: &mut Random) -> Vec<u8> {
    let mut line = valid_line(random);
    line[DIGITS - 1] = random.pick(b"0123456789ABCDEFabcdef");
    line
}

/// Digits as they come.
pub fn digits_line(random: &mut Random) -> Vec<u8> {
    (0..DIGITS).map(|_| random.pick(b"0123456789ABCDEFabcdef")).collect()
}

/// A valid line in which one or two characters are no digits.
pub fn no_digit_line(random: &mut Random) -> Vec<u8> {
    let mut line = valid_line(random);
    for _ in 0..1 + random.below(2) {
        let inside = random.below(DIGITS);
        let place = random.pick(&[0, DIGITS - 1, inside]);
        line[place] = random.pick(NO_DIGITS);
    }
    line
}

/// A valid line cut, or lengthened by zeros, to a length that is near or far
/// and now and then its own.
pub fn length_line(random: &mut Random) -> Vec<u8> {
    let mut line = valid_line(random);
    let far = random.below(130);
    line.resize(random.pick(&[0, 1, 62, 64, 65, 126, far]), b'0');
    line
}

/// A valid line with something before or behind it that a screen hides.
pub fn ended_line(random: &mut Random) -> Vec<u8> {
    let line = valid_line(random);
    let hidden: &[u8] = random.pick(&[b"\r", b"\n", b"\r\n", b" ", b"\t", b"\0", b"\xEF\xBB\xBF"]);
    let mut parts = [&line[..], hidden];
    if random.one_in(3) {
        parts.swap(0, 1);
    }
    parts.concat()
}

/// A receiver's sentence with a valid line in it.
pub fn sentence_line(random: &mut Random) -> Vec<u8> {
    let line = valid_line(random);
    [b"$QZQSM,55,", &line[..], b"*00\r"].concat()
}

/// Full-width digits: 21 of them have as many bytes as a line has digits.
pub fn full_width_line(random: &mut Random) -> Vec<u8> {
    let count = random.pick(&[DIGITS / 3, DIGITS]);
    let digits: Vec<char> = "０１２３４５６７８９ＡＢＣＤＥＦ".chars().collect();
    (0..count).map(|_| random.pick(&digits)).collect::<String>().into_bytes()
}

/// Bytes as they come, half of the time as many as a line has digits.
pub fn binary_line(random: &mut Random) -> Vec<u8> {
    let other = random.below(130);
    let length = random.pick(&[DIGITS, other]);
    random_bytes(random, length)
}

/// Digits in capitals, small letters or both.
pub(super) fn any_case(random: &mut Random, line: &[u8]) -> Vec<u8> {
    match random.below(3) {
        0 => line.to_vec(),
        1 => line.to_ascii_lowercase(),
        _ => line.iter().map(|&digit| either_case(random, digit)).collect(),
    }
}

fn either_case(random: &mut Random, digit: u8) -> u8 {
    random.pick(&[digit.to_ascii_lowercase(), digit.to_ascii_uppercase()])
}
