//! The builders of sentences reach what they are meant to reach.

use crate::number;
use reference::generate::*;
use reference::random::Random;
use reference::sentence::{read_sentence, CHECKSUM, LENGTH, LINE, SATELLITES};
use std::collections::BTreeSet;

const COUNT: usize = 20_000;

/// The numbers that come up, 0 where a sentence is read.
fn numbers(build: fn(&mut Random) -> Vec<u8>) -> Vec<u8> {
    let mut random = Random::new(80);
    let seen: BTreeSet<u8> = (0..COUNT).map(|_| number(&build(&mut random))).collect();
    seen.into_iter().collect()
}

#[test]
fn each_builder_reaches_its_numbers() {
    assert_eq!(numbers(valid_sentence), [0]);
    assert_eq!(numbers(frame_sentence), [0, 2, 3, 4, 5, 6, 7, 8, 10]);
    assert_eq!(numbers(changed_sentence), [0, 18, 19]);
    assert_eq!(numbers(resealed_sentence), [0, 2, 3, 4, 17, 18, 20]);
    assert_eq!(numbers(head_sentence), [18]);
    assert_eq!(numbers(delimiter_sentence), [18]);
    assert_eq!(numbers(ended_sentence), [18]);
    assert_eq!(numbers(length_sentence), [0, 18]);
    assert_eq!(numbers(satellite_sentence), [0, 20]);
    assert_eq!(numbers(no_digit_sentence), [17]);
    assert_eq!(numbers(comma_or_star_sentence), [17]);
    assert_eq!(numbers(checksum_sentence), [18, 19]);
    assert_eq!(numbers(other_sentence), [18]);
    assert_eq!(numbers(binary_sentence), [18]);
    let many = [0, 2, 3, 4, 5, 6, 7, 8, 10, 17, 18, 19, 20];
    assert_eq!(numbers(many_faults_sentence), many);
    assert_eq!(numbers(any_sentence), many);
}

/// Each satellite with digits and checksum in capitals, in small letters and in both.
#[test]
fn right_sentences_have_every_satellite_and_every_case() {
    let cases = |characters: &[u8]| {
        let has = |is: fn(&u8) -> bool| characters.iter().any(is);
        (has(u8::is_ascii_uppercase), has(u8::is_ascii_lowercase))
    };
    let mut random = Random::new(81);
    let mut seen = BTreeSet::new();
    for _ in 0..COUNT {
        let sentence = valid_sentence(&mut random);
        let satellite = read_sentence(&sentence).expect("the sentence is valid").satellite;
        seen.insert((satellite, cases(&sentence[LINE]), cases(&sentence[CHECKSUM])));
    }
    for satellite in SATELLITES {
        for line in [(true, false), (false, true), (true, true)] {
            for told in [(false, false), (true, false), (false, true)] {
                assert!(seen.contains(&(satellite, line, told)), "{satellite} {line:?} {told:?}");
            }
        }
    }
}

/// Lengths below and above the right one, and the right one with other ends.
#[test]
fn wrong_lengths_and_ends_come_up() {
    let mut random = Random::new(82);
    let lengths: BTreeSet<usize> = (0..COUNT).map(|_| length_sentence(&mut random).len()).collect();
    assert!((0..2 * LENGTH).all(|length| lengths.contains(&length)));
    let ends: BTreeSet<Vec<u8>> =
        (0..COUNT).map(|_| ended_sentence(&mut random)[CHECKSUM.end..].to_vec()).collect();
    assert_eq!(ends.len(), 11);
}
