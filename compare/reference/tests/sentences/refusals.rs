//! What is refused, at every place and with every number, and what comes first where
//! there are several reasons.

use crate::{number, sentence, EXAMPLE};
use reference::generate::{seal_sentence, valid_sentence};
use reference::line::{read_line, DIGITS};
use reference::random::Random;
use reference::record::Refusal;
use reference::sentence::{
    checksum, read_sentence, CHECKSUM, LENGTH, LINE, SATELLITE, SATELLITES, SUMMED,
};

/// The digits of the example.
fn digits() -> &'static str {
    std::str::from_utf8(&EXAMPLE[LINE]).expect("it is plain text")
}

/// The example with other characters from a place on, and its checksum as it was or
/// corrected.
fn with(place: usize, characters: &[u8], sealed: bool) -> Vec<u8> {
    let mut sentence = EXAMPLE.to_vec();
    sentence[place..place + characters.len()].copy_from_slice(characters);
    if sealed {
        seal_sentence(&mut sentence);
    }
    sentence
}

/// Whether the head, a comma, the star or the end stands there.
fn is_fixed(place: usize) -> bool {
    matches!(place, 0..=6 | 9 | 73 | 76 | 77)
}

/// The parts stand behind each other and fill the sentence.
#[test]
fn where_the_parts_stand() {
    let text = std::str::from_utf8(EXAMPLE).expect("it is plain text");
    let parts = [
        &text[..6],
        &text[6..7],
        &text[SATELLITE],
        &text[9..10],
        &text[LINE],
        &text[73..74],
        &text[CHECKSUM],
        &text[76..],
    ];
    assert_eq!(parts, ["$QZQSM", ",", "55", ",", digits(), "*", "7B", "\r\n"]);
    assert_eq!(parts.concat(), text);
    assert_eq!(text[SUMMED], text[text.find('$').unwrap() + 1..text.find('*').unwrap()]);
}

/// Every byte at every place, with the checksum as it was: 18 at the fixed places and
/// for what is no digit in the checksum, else 19. Only the case of the checksum may
/// change.
#[test]
fn one_character_changed_is_18_or_19() {
    for place in 0..LENGTH {
        for character in 0..=u8::MAX {
            let expected = match EXAMPLE[place] {
                right if right == character => 0,
                _ if is_fixed(place) => 18,
                _ if !CHECKSUM.contains(&place) => 19,
                right if right.eq_ignore_ascii_case(&character) => 0,
                _ if character.is_ascii_hexdigit() => 19,
                _ => 18,
            };
            let sentence = with(place, &[character], false);
            assert_eq!(number(&sentence), expected, "{character:02X} at {place}");
        }
    }
}

/// The same with the checksum corrected: 18 at the fixed places, 20 for the satellite,
/// 17 for what is no digit, and what its line says for other digits.
#[test]
fn one_character_changed_with_right_checksum() {
    for place in (0..LENGTH).filter(|place| !CHECKSUM.contains(place)) {
        for character in 0..=u8::MAX {
            let sentence = with(place, &[character], true);
            let line = read_line(&sentence[LINE]).map_or_else(|why| why.number, |_| 0);
            let expected = match EXAMPLE[place] {
                right if right == character => 0,
                _ if is_fixed(place) => 18,
                _ if SATELLITE.contains(&place) => match &sentence[SATELLITE] {
                    b"56" | b"57" | b"58" => 0,
                    _ => 20,
                },
                _ if !character.is_ascii_hexdigit() => 17,
                _ => line,
            };
            assert_eq!(number(&sentence), expected, "{character:02X} at {place}");
        }
    }
}

/// A character changed to any other changes the sum of what is summed.
#[test]
fn a_checksum_sees_one_character() {
    for place in SUMMED {
        for character in (0..=u8::MAX).filter(|&character| character != EXAMPLE[place]) {
            let sentence = with(place, &[character], false);
            assert_ne!(checksum(&sentence[SUMMED]), checksum(&EXAMPLE[SUMMED]));
        }
    }
}

#[test]
fn only_78_characters_are_a_sentence() {
    for length in 0..=2 * LENGTH {
        let mut cut = EXAMPLE.to_vec();
        cut.resize(length, b'\n');
        assert_eq!(number(&cut) == 0, length == LENGTH);
        assert_eq!(number(&cut) == 18, length != LENGTH);
    }
    // A digit more or less, with right ends and checksum.
    for count in (DIGITS - 3..=DIGITS + 3).filter(|&count| count != DIGITS) {
        assert_eq!(number(&sentence("55", &"0".repeat(count))), 18);
    }
    assert_eq!(number(&sentence("055", digits())), 18);
    assert_eq!(number(&sentence("5", digits())), 18);
    assert_eq!(number(&sentence("055", &digits()[1..])), 18);
}

#[test]
fn only_carriage_return_and_line_feed_end_a_sentence() {
    let front = &EXAMPLE[..CHECKSUM.end];
    let ends: [&[u8]; 9] =
        [b"", b"\r", b"\n", b"\n\r", b"\r\r", b"\n\n", b"\r\n\r\n", b"  ", b"\r\n\0"];
    for end in ends {
        assert_eq!(number(&[front, end].concat()), 18, "{end:?}");
    }
    assert_eq!(number(&[front, b"\r\n"].concat()), 0);
}

/// Every two characters for the satellite, with right checksum.
#[test]
fn only_the_listed_satellites_are_read() {
    let listed: [&[u8]; 5] = [b"55", b"56", b"57", b"58", b"61"];
    assert_eq!(SATELLITES[..], [55, 56, 57, 58, 61]);
    for characters in (0..=u16::MAX).map(u16::to_be_bytes) {
        let sentence = with(SATELLITE.start, &characters, true);
        let expected = if listed.contains(&&characters[..]) { 0 } else { 20 };
        assert_eq!(number(&sentence), expected, "{characters:02X?}");
    }
}

/// Every two characters for the checksum: 7B in either case is read.
#[test]
fn only_the_right_checksum_is_read() {
    for characters in (0..=u16::MAX).map(u16::to_be_bytes) {
        let expected = match &characters {
            b"7B" | b"7b" => 0,
            [high, low] if high.is_ascii_hexdigit() && low.is_ascii_hexdigit() => 19,
            _ => 18,
        };
        let sentence = with(CHECKSUM.start, &characters, false);
        assert_eq!(number(&sentence), expected, "{characters:02X?}");
    }
}

/// A comma or a star where a digit should be is 17 and nothing else: 18 looks at fixed
/// places, and the sum goes to the star behind the digits.
#[test]
fn commas_and_stars_among_the_digits_are_17() {
    for place in LINE {
        for character in [b',', b'*'] {
            assert_eq!(number(&with(place, &[character], false)), 19);
            assert_eq!(number(&with(place, &[character], true)), 17);
        }
    }
}

/// All reasons at once, of which the first is mended after it was told.
#[test]
fn several_reasons_come_in_their_order() {
    let mut sentence = EXAMPLE.to_vec();
    sentence.push(b'\n');
    sentence[SATELLITE].copy_from_slice(b"60");
    sentence[LINE.start] = b'6'; // the preamble
    sentence[LINE.start + 1] = b'g'; // no digit
    sentence[LINE.end - 1] = b'5'; // padding, in the digit of two bits of the parity
    for (place, wrong) in [(0, b'!'), (6, b';'), (9, b' '), (73, b','), (74, b'G'), (76, b'\n')] {
        sentence[place] = wrong;
    }
    assert_eq!(number(&sentence), 18);
    sentence.pop();
    for (place, right) in [(0, b'$'), (6, b','), (9, b','), (73, b'*'), (76, b'\r'), (74, b'7')] {
        assert_eq!(number(&sentence), 18);
        sentence[place] = right;
    }
    assert_eq!(number(&sentence), 19);
    seal_sentence(&mut sentence);
    assert_eq!(number(&sentence), 20);
    let mends: [(usize, &[u8], u8); 4] = [
        (SATELLITE.start, b"55", 17),
        (LINE.start + 1, b"3", 2),
        (LINE.end - 1, b"4", 3),
        (LINE.start, b"5", 0),
    ];
    for (place, right, then) in mends {
        sentence[place..place + right.len()].copy_from_slice(right);
        // What was mended is seen in the checksum first.
        assert_eq!(number(&sentence), 19);
        seal_sentence(&mut sentence);
        assert_eq!(number(&sentence), then);
    }
    assert_eq!(sentence, EXAMPLE);
}

/// A refusal of the frame has its place and value, and the others have none.
#[test]
fn places_and_values_are_those_of_the_line() {
    // A magnitude of 102: 8 at 105.
    let line = "53AF91AC82800388000059051466C5C82A0108300000000000000010360D720";
    assert_eq!(read_sentence(&sentence("57", line)), Err(Refusal::out_of_range(105, 102)));
    assert_eq!(read_sentence(&sentence("59", line)), Err(Refusal::plain(20)));
    let mut wrong = sentence("57", line);
    wrong[CHECKSUM].copy_from_slice(b"00");
    assert_eq!(read_sentence(&wrong), Err(Refusal::plain(19)));
    wrong[CHECKSUM].copy_from_slice(b"0x");
    assert_eq!(read_sentence(&wrong), Err(Refusal::plain(18)));
}

#[test]
fn what_is_read_is_what_its_line_is() {
    let mut random = Random::new(77);
    for _ in 0..20_000 {
        let sentence = valid_sentence(&mut random);
        let received = read_sentence(&sentence).expect("the sentence is valid");
        assert_eq!(Ok(received.record), read_line(&sentence[LINE]));
        assert_eq!(received.satellite.to_string().as_bytes(), &sentence[SATELLITE]);
    }
}
