//! Sentences that are read, and all that is refused instead.

use super::{agree, cases, frames_with_values, record_of, sample};
use crate::lent::{refused, Outcome};
use crate::packed::LENGTH as RECORD_LENGTH;
use crate::values::value_of;
use crate::{pattern, Count};
use reference::generate::{any_sentence, many_faults_sentence, seal_sentence, sentence_around};
use reference::line::line_of_frame;
use reference::random::Random;
use reference::sentence::{checksum, read_sentence, CHECKSUM, LENGTH, LINE, SATELLITES, SUMMED};

const ANY_SENTENCES: usize = 500_000;
const FAULTY_SENTENCES: usize = 300_000;

/// Sentences of every kind that the reference builds, and what is no sentence.
pub fn any_sentences(count: &mut Count) {
    let mut random = Random::new(150);
    for _ in 0..ANY_SENTENCES {
        agree(count, &any_sentence(&mut random));
    }
}

/// Every byte at every place of sentences that are otherwise read, with the checksum
/// as it was and with the one that is right then.
pub fn characters(count: &mut Count) {
    for (line, satellite) in cases(&sample()).iter().zip(["55", "58", "61"]) {
        let base = sentence_around(satellite.as_bytes(), line);
        for place in 0..LENGTH {
            for character in 0..=u8::MAX {
                let mut sentence = base.clone();
                sentence[place] = character;
                agree(count, &sentence);
                seal_sentence(&mut sentence);
                agree(count, &sentence);
            }
        }
    }
}

/// Every two characters for the satellite, with right checksum.
pub fn satellites(count: &mut Count) {
    for characters in (0..=u16::MAX).map(u16::to_be_bytes) {
        agree(count, &sentence_around(&characters, &line_of_frame(&sample())));
    }
}

/// Every two characters for the checksum, in a sentence whose checksum has a letter.
pub fn checksums(count: &mut Count) {
    let mut sentence = sentence_around(b"55", &line_of_frame(&sample()));
    for characters in (0..=u16::MAX).map(u16::to_be_bytes) {
        sentence[CHECKSUM].copy_from_slice(&characters);
        agree(count, &sentence);
    }
}

/// A character changed to any other changes the checksum, so the door never takes it
/// for the sentence it was: 18 where every sentence has the same, and else 19.
pub fn one_character(count: &mut Count) {
    for satellite in SATELLITES {
        let right = sentence_around(satellite.to_string().as_bytes(), &cases(&sample())[1]);
        for place in SUMMED {
            for character in (0..=u8::MAX).filter(|&character| character != right[place]) {
                let mut sentence = right.clone();
                sentence[place] = character;
                let sums = [&sentence, &right].map(|one| checksum(&one[SUMMED]));
                count.same(&sentence, &(sums[0] == sums[1]), &false);
                // The head and the commas; the star and the end are not summed.
                let number = if matches!(place, 1..=6 | 9) { 18 } else { 19 };
                let expected = refused(number, &pattern(RECORD_LENGTH));
                count.same(&sentence, &record_of(&sentence, RECORD_LENGTH), &expected);
            }
        }
    }
}

/// A comma or a star at each place of the digits, which is 17 where the checksum and
/// the satellite are right, and is told behind them where they are not.
pub fn commas_and_stars(count: &mut Count) {
    for (satellite, number) in [("55", 17), ("59", 20)] {
        for place in 0..LINE.len() {
            for character in [b',', b'*'] {
                let mut line = line_of_frame(&sample());
                line[place] = character;
                let mut sentence = sentence_around(satellite.as_bytes(), &line);
                for number in [number, 19] {
                    let expected = refused(number, &pattern(RECORD_LENGTH));
                    count.same(&sentence, &record_of(&sentence, RECORD_LENGTH), &expected);
                    agree(count, &sentence);
                    sentence[CHECKSUM.start] ^= 1;
                }
            }
        }
    }
}

/// Sentences cut short, or with something behind them, and one that is very long.
pub fn lengths(count: &mut Count) {
    let right = sentence_around(b"56", &line_of_frame(&sample()));
    for length in (0..=300).chain([1_000_000]) {
        for filler in [b'0', b'\r', b'\n', b'\0'] {
            let mut sentence = right.clone();
            sentence.resize(length, filler);
            agree(count, &sentence);
        }
        // The same length, 15 at least, with a right end: what is too long or too short is the frame.
        let other = vec![b'0'; length.saturating_sub(LENGTH - LINE.len())];
        agree(count, &[&right[..LINE.start], &other, &right[LINE.end..]].concat());
    }
}

/// Several faults at once.
pub fn several_faults(count: &mut Count) {
    let mut random = Random::new(151);
    for _ in 0..FAULTY_SENTENCES {
        agree(count, &many_faults_sentence(&mut random));
    }
}

/// Frames with each field at its bounds, and frames with two fields out of range: the
/// value is told where nothing before it is refused, and asked for in any case.
pub fn values(count: &mut Count) {
    let mut random = Random::new(152);
    for frame in frames_with_values(&mut random) {
        let satellite = random.pick(&SATELLITES).to_string();
        let right = sentence_around(satellite.as_bytes(), &line_of_frame(&frame));
        let other_satellite = sentence_around(b"62", &right[LINE]);
        let mut other_checksum = right.clone();
        other_checksum[CHECKSUM.start] ^= 1;
        for sentence in [&right[..], &other_satellite, &other_checksum, &right[1..]] {
            agree(count, sentence);
        }
    }
}

/// A buffer for the record of another length is 255, whatever the sentence is, and
/// stays as it was. The value is asked of the sentence alone.
pub fn record_lengths(count: &mut Count) {
    let mut random = Random::new(153);
    for _ in 0..2000 {
        let sentence = any_sentence(&mut random);
        for length in [0, 1, LENGTH, RECORD_LENGTH - 1, RECORD_LENGTH + 1] {
            let asked = value_of(read_sentence(&sentence));
            let expected = Outcome { asked, ..refused(255, &pattern(length)) };
            count.same(&sentence, &record_of(&sentence, length), &expected);
        }
    }
}
