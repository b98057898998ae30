//! A frame as a receiver's sentence, which section 4.3 of document 001 describes:
//! `$QZQSM`, comma, satellite, comma, the 63 digits of a line, star, two digits of
//! checksum, carriage return and line feed. Every part stands at a fixed place.

use crate::bits::Frame;
use crate::line::{line_of_frame, read_line, DIGITS};
use crate::read::read;
use crate::record::{Record, Refusal};
use std::ops::Range;

/// How many characters a sentence has, its carriage return and line feed included.
pub const LENGTH: usize = 78;

/// What every sentence begins with.
pub const HEAD: &[u8] = b"$QZQSM";

/// What is the same in every sentence, each part with its first place.
const FIXED: [(usize, &[u8]); 5] = [(0, HEAD), (6, b","), (9, b","), (73, b"*"), (76, b"\r\n")];

/// Where the other parts stand.
pub const SATELLITE: Range<usize> = 7..9;
pub const LINE: Range<usize> = 10..10 + DIGITS;
pub const CHECKSUM: Range<usize> = 74..76;

/// What the checksum is taken of: all that stands between `$` and the star, head,
/// commas and satellite included.
pub const SUMMED: Range<usize> = 1..73;

/// The satellites that table 4.3.1-1 lists.
pub const SATELLITES: [u8; 5] = [55, 56, 57, 58, 61];

/// What a sentence says: which satellite sent a frame, and the record of the frame.
#[derive(Clone, Copy, PartialEq, Eq, Debug)]
pub struct Received {
    pub satellite: u8,
    pub record: Record,
}

/// Reads a sentence: 18, 19, 20, then as its line is read.
pub fn read_sentence(sentence: &[u8]) -> Result<Received, Refusal> {
    let told = checksum_told(sentence).ok_or(Refusal::plain(18))?;
    if told != checksum(&sentence[SUMMED]) {
        return Err(Refusal::plain(19));
    }
    let satellite = satellite_of(&sentence[SATELLITE]).ok_or(Refusal::plain(20))?;
    let record = read_line(&sentence[LINE])?;
    Ok(Received { satellite, record })
}

/// Writes a frame as the sentence of a satellite to a lent buffer: 20, then what
/// reading the frame refuses, then 16 for a buffer that is shorter than the
/// sentence. What lies behind stays.
pub fn write_sentence(satellite: u32, frame: &[u8], sentence: &mut [u8]) -> Result<(), Refusal> {
    if !SATELLITES.into_iter().any(|listed| u32::from(listed) == satellite) {
        return Err(Refusal::plain(20));
    }
    read(frame)?;
    let frame: &Frame = frame.try_into().expect("what is read is a frame");
    let lent = sentence.get_mut(..LENGTH).ok_or(Refusal::plain(16))?;
    lent.copy_from_slice(&sentence_of(satellite, frame));
    Ok(())
}

/// The exclusive or of all the characters.
pub fn checksum(characters: &[u8]) -> u8 {
    characters.iter().fold(0, |sum, character| sum ^ character)
}

/// The number that stands for the checksum, or nothing where the length, the head, a
/// comma, the star or the line end is wrong or one of the two is no digit. Only fixed
/// places are looked at: a comma or star elsewhere is not a matter of this.
fn checksum_told(sentence: &[u8]) -> Option<u8> {
    if sentence.len() != LENGTH {
        return None;
    }
    for (place, part) in FIXED {
        if !sentence[place..].starts_with(part) {
            return None;
        }
    }
    let mut told = 0;
    for &character in &sentence[CHECKSUM] {
        told = 16 * told + char::from(character).to_digit(16)?;
    }
    Some(told as u8)
}

/// The satellite whose number two characters are, if it is listed.
fn satellite_of(characters: &[u8]) -> Option<u8> {
    SATELLITES.into_iter().find(|satellite| satellite.to_string().as_bytes() == characters)
}

/// The sentence of a listed satellite and a frame, with all digits in capitals.
fn sentence_of(satellite: u32, frame: &Frame) -> Vec<u8> {
    let satellite = satellite.to_string();
    let parts = [HEAD, b",", satellite.as_bytes(), b",", &line_of_frame(frame), b"*"];
    let mut sentence = parts.concat();
    let sum = checksum(&sentence[SUMMED]);
    sentence.extend_from_slice(format!("{sum:02X}\r\n").as_bytes());
    sentence
}
