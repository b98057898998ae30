//! What may happen to a sentence that leaves its length as it is.

use super::OTHER_ENDS;
use crate::generate::lines::NO_DIGITS;
use crate::generate::{any_frame_line, random_bytes};
use crate::random::Random;
use crate::sentence::{CHECKSUM, HEAD, LENGTH, LINE, SATELLITE};

/// One way to damage a sentence that has its length.
pub type Damage = fn(&mut Random, &mut [u8]);

/// Damage to what every sentence has at the same places, and to anything.
pub const OUTER_DAMAGES: [Damage; 4] =
    [change_character, change_head, change_delimiter, change_end];

/// Damage to what is looked at behind that, the checksum apart, which may have to be
/// put right behind it.
pub const INNER_DAMAGES: [Damage; 4] =
    [put_satellite, put_no_digit, put_comma_or_star, put_any_frame];

/// Heads of other sentences, and what looks like the right one.
const OTHER_HEADS: &[&[u8]] =
    &[b"$GPGGA", b"$QZQSm", b"$qzqsm", b"$QZQSN", b"$QZSQM", b"!QZQSM", b" QZQSM", b"$$QZQS"];

/// Any character may become any other.
pub fn change_character(random: &mut Random, sentence: &mut [u8]) {
    sentence[random.below(LENGTH)] = random.byte();
}

/// The head of another sentence, or one character of it changed.
pub fn change_head(random: &mut Random, sentence: &mut [u8]) {
    if random.one_in(2) {
        sentence[..HEAD.len()].copy_from_slice(random.pick(OTHER_HEADS));
    } else {
        let place = random.below(HEAD.len());
        sentence[place] = another(random, HEAD[place]);
    }
}

/// A comma or the star becomes something else.
pub fn change_delimiter(random: &mut Random, sentence: &mut [u8]) {
    let (place, right) = random.pick(&[(6, b','), (9, b','), (73, b'*')]);
    let random_one = another(random, right);
    sentence[place] = random.pick(&[b'.', b';', b' ', b'0', b'\n', random_one]);
}

/// Another end of the same length.
pub fn change_end(random: &mut Random, sentence: &mut [u8]) {
    let same_length: Vec<&[u8]> =
        OTHER_ENDS.iter().copied().filter(|end| end.len() == b"\r\n".len()).collect();
    sentence[CHECKSUM.end..].copy_from_slice(random.pick(&same_length));
}

/// Any two characters for the satellite: numbers for the most part, listed or not, and
/// what a careless reader takes for one.
pub fn put_satellite(random: &mut Random, sentence: &mut [u8]) {
    let number = format!("{:02}", random.below(100)).into_bytes();
    let bytes = random_bytes(random, SATELLITE.len());
    let look_alike =
        random.pick(&[b"5 ", b" 5", b"+5", b"5,", b",5", b"5A", b"aa", b"6*", b"\xB5\xB5"]);
    let chosen = random.below(4);
    sentence[SATELLITE].copy_from_slice([&number, &number, &bytes, &look_alike[..]][chosen]);
}

/// A character among those of the frame is no digit.
pub fn put_no_digit(random: &mut Random, sentence: &mut [u8]) {
    put_in_line(random, sentence, NO_DIGITS);
}

/// A comma or a star stands among the digits, where nothing looks for one.
pub fn put_comma_or_star(random: &mut Random, sentence: &mut [u8]) {
    put_in_line(random, sentence, b",*");
}

/// Puts one of some characters among those of the frame; the first and the last place
/// are next to a comma and the star.
fn put_in_line(random: &mut Random, sentence: &mut [u8], characters: &[u8]) {
    let inside = LINE.start + random.below(LINE.len());
    let place = random.pick(&[LINE.start, LINE.end - 1, inside, inside]);
    sentence[place] = random.pick(characters);
}

/// The digits are those of another frame of any kind.
fn put_any_frame(random: &mut Random, sentence: &mut [u8]) {
    sentence[LINE].copy_from_slice(&any_frame_line(random));
}

/// One character of the checksum is another digit, or none.
pub fn change_checksum(random: &mut Random, sentence: &mut [u8]) {
    let place = CHECKSUM.start + random.below(CHECKSUM.len());
    let right = sentence[place];
    let wrong = loop {
        let digit = random.pick(b"0123456789ABCDEFabcdef");
        if !digit.eq_ignore_ascii_case(&right) {
            break digit;
        }
    };
    let no_digit = random.pick(NO_DIGITS);
    sentence[place] = random.pick(&[wrong, no_digit]);
}

/// Any character but this one.
fn another(random: &mut Random, character: u8) -> u8 {
    character ^ (1 + random.below(255) as u8)
}
