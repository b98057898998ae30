//! Sentences for the sentence reader: of frames of every kind, with faults in every
//! part, and what a receiver sends beside them.

mod damage;

use self::damage::*;
use super::lines::any_case;
use super::{any_frame_line, any_line, padded_line, random_bytes, valid_line};
use crate::line::line_of_frame;
use crate::random::Random;
use crate::samples;
use crate::sentence::{checksum, CHECKSUM, LENGTH, LINE, SATELLITES, SUMMED};
use crate::write::write;

/// What may stand at the end instead of carriage return and line feed.
const OTHER_ENDS: &[&[u8]] = &[
    b"\n", b"\r", b"", b"\n\r", b"\r\r", b"\n\n", b"\r\n\n", b"\r\r\n", b"\r\n\0", b" \n", b"\r ",
];

/// What a receiver sends beside the frames, without `$` and checksum.
const OTHERS: &[&str] = &[
    "GPGGA,030501.00,3541.0921,N,13945.0112,E,1,09,0.94,41.3,M,36.7,M,,",
    "GNRMC,030501.00,A,3541.0921,N,13945.0112,E,0.02,,110325,,,A",
    "GPGSV,3,1,11,02,44,301,41,05,63,061,44,07,21,175,36,13,38,051,40",
    "QZGSV,1,1,03,55,78,170,46,56,41,190,42,61,48,201,43",
    "QZQSX,55,53",
    "PSTMVER,1",
    "",
];

/// A sentence of any kind this module knows, and what is none.
pub fn any_sentence(random: &mut Random) -> Vec<u8> {
    match random.below(18) {
        0 | 1 => valid_sentence(random),
        2 | 3 => frame_sentence(random),
        4 => changed_sentence(random),
        5 => resealed_sentence(random),
        6 => head_sentence(random),
        7 => delimiter_sentence(random),
        8 => ended_sentence(random),
        9 => length_sentence(random),
        10 => satellite_sentence(random),
        11 => no_digit_sentence(random),
        12 => comma_or_star_sentence(random),
        13 => checksum_sentence(random),
        14 => many_faults_sentence(random),
        15 => other_sentence(random),
        16 => any_line(random),
        _ => binary_sentence(random),
    }
}

/// The sentence around two characters for a satellite and 63 for a line, whatever they
/// are, with right checksum. It is laid out here and not by the writer, so that a
/// mistake there cannot hide one in the reader.
pub fn sentence_around(satellite: &[u8], line: &[u8]) -> Vec<u8> {
    let mut sentence = [b"$QZQSM,", satellite, b",", line, b"*00\r\n"].concat();
    seal_sentence(&mut sentence);
    sentence
}

/// Gives a sentence the checksum of its characters, in capitals.
pub fn seal_sentence(sentence: &mut [u8]) {
    let sum = checksum(&sentence[SUMMED]);
    sentence[CHECKSUM].copy_from_slice(format!("{sum:02X}").as_bytes());
}

/// A sentence that must be read, of a sample or of any right frame, with the digits
/// of the frame and of the checksum each in capitals, small letters or both.
pub fn valid_sentence(random: &mut Random) -> Vec<u8> {
    let line = if random.one_in(4) { sample_line(random) } else { valid_line(random) };
    sentence_of_line(random, &line)
}

/// The same around the line of a frame of any kind, or a line with any last digit.
pub fn frame_sentence(random: &mut Random) -> Vec<u8> {
    let line = if random.one_in(4) { padded_line(random) } else { any_frame_line(random) };
    sentence_of_line(random, &line)
}

/// A right sentence with one character changed, and its checksum as it was.
pub fn changed_sentence(random: &mut Random) -> Vec<u8> {
    let mut sentence = valid_sentence(random);
    change_character(random, &mut sentence);
    sentence
}

/// The same with its checksum corrected, so that 19 hides nothing behind it.
pub fn resealed_sentence(random: &mut Random) -> Vec<u8> {
    damaged(random, change_character)
}

/// Another head, or one character of it changed, with right checksum.
pub fn head_sentence(random: &mut Random) -> Vec<u8> {
    damaged(random, change_head)
}

/// A comma or the star changed, with right checksum.
pub fn delimiter_sentence(random: &mut Random) -> Vec<u8> {
    damaged(random, change_delimiter)
}

/// A right sentence but for its end, which may be longer or shorter.
pub fn ended_sentence(random: &mut Random) -> Vec<u8> {
    let sentence = valid_sentence(random);
    [&sentence[..CHECKSUM.end], random.pick(OTHER_ENDS)].concat()
}

/// A right sentence that is cut, or lengthened at the end or before it, to a length
/// that is near or far and now and then its own.
pub fn length_sentence(random: &mut Random) -> Vec<u8> {
    let mut sentence = valid_sentence(random);
    let far = random.below(2 * LENGTH);
    let length = random.pick(&[0, 1, LENGTH - 2, LENGTH - 1, LENGTH + 1, LENGTH + 2, far]);
    if random.one_in(2) {
        sentence.resize(length, b'0');
        return sentence;
    }
    let (front, end) = (&sentence[..LINE.end], &sentence[LINE.end..]);
    let mut front = front.to_vec();
    front.resize(length.saturating_sub(end.len()), b'0');
    [&front[..], end].concat()
}

/// Any two characters for the satellite, most of them a number, with right checksum.
pub fn satellite_sentence(random: &mut Random) -> Vec<u8> {
    damaged(random, put_satellite)
}

/// A character among those of the frame that is no digit, with right checksum.
pub fn no_digit_sentence(random: &mut Random) -> Vec<u8> {
    damaged(random, put_no_digit)
}

/// A comma or a star among the digits of the frame, with right checksum.
pub fn comma_or_star_sentence(random: &mut Random) -> Vec<u8> {
    damaged(random, put_comma_or_star)
}

/// Another checksum, or a character in it that is no digit.
pub fn checksum_sentence(random: &mut Random) -> Vec<u8> {
    let mut sentence = valid_sentence(random);
    change_checksum(random, &mut sentence);
    sentence
}

/// Two to four faults at once, half of the time with right checksum, and now and then
/// of another length. Half of the time all of them lie behind what every sentence has,
/// so that their own order is seen.
pub fn many_faults_sentence(random: &mut Random) -> Vec<u8> {
    let mut sentence = valid_sentence(random);
    let inner_alone = random.one_in(2);
    for _ in 0..2 + random.below(3) {
        let outer = !inner_alone && random.one_in(2);
        let damages = if outer { OUTER_DAMAGES } else { INNER_DAMAGES };
        random.pick(&damages)(random, &mut sentence);
    }
    if random.one_in(2) {
        seal_sentence(&mut sentence);
    }
    if random.one_in(6) {
        change_checksum(random, &mut sentence);
    }
    if random.one_in(8) {
        sentence.truncate(LENGTH - 1 - random.below(3));
    }
    sentence
}

/// What a receiver sends beside the frames, with right checksum.
pub fn other_sentence(random: &mut Random) -> Vec<u8> {
    let body = random.pick(OTHERS);
    format!("${body}*{:02X}\r\n", checksum(body.as_bytes())).into_bytes()
}

/// Bytes as they come, half of the time as many as a sentence has.
pub fn binary_sentence(random: &mut Random) -> Vec<u8> {
    let other = random.below(2 * LENGTH);
    let length = random.pick(&[LENGTH, other]);
    random_bytes(random, length)
}

/// The line of a report of document 004.
fn sample_line(random: &mut Random) -> Vec<u8> {
    let mut frame = [0; 32];
    write(&random.pick(&samples::all()), &mut frame).expect("a sample is valid");
    any_case(random, &line_of_frame(&frame))
}

/// The sentence of any listed satellite around a line, its checksum in either case.
fn sentence_of_line(random: &mut Random, line: &[u8]) -> Vec<u8> {
    let satellite = random.pick(&SATELLITES).to_string();
    let mut sentence = sentence_around(satellite.as_bytes(), line);
    let told = any_case(random, &sentence[CHECKSUM]);
    sentence[CHECKSUM].copy_from_slice(&told);
    sentence
}

/// A right sentence that was damaged and has the checksum of what it is then.
fn damaged(random: &mut Random, damage: Damage) -> Vec<u8> {
    let mut sentence = valid_sentence(random);
    damage(random, &mut sentence);
    seal_sentence(&mut sentence);
    sentence
}
