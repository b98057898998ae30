//! Lines of 63 hexadecimal digits, to frames and back.

use reference::generate::*;
use reference::line::{frame_of_line, line_of_frame, read_line, write_line, DIGITS};
use reference::random::Random;
use reference::read::read;
use reference::record::Refusal;
use reference::samples;
use reference::write::write;

const COUNT: usize = 20_000;

fn number(line: &[u8]) -> u8 {
    read_line(line).map_or_else(|refusal| refusal.number, |_| 0)
}

#[test]
fn a_line_is_read_in_either_case() {
    for record in samples::all() {
        let mut frame = [0; 32];
        write(&record, &mut frame).expect("a sample is valid");
        let line = line_of_frame(&frame);
        assert!(line.iter().all(|digit| b"0123456789ABCDEF".contains(digit)));
        assert_eq!(read_line(&line), Ok(record));
        assert_eq!(read_line(&line.to_ascii_lowercase()), Ok(record));
    }
}

#[test]
fn digits_go_to_their_bits() {
    let line = format!("53AfA1aC9{}C", "0".repeat(53));
    let mut frame = [0; 32];
    frame[..5].copy_from_slice(&[0x53, 0xAF, 0xA1, 0xAC, 0x90]);
    frame[31] = 0xC0;
    assert_eq!(frame_of_line(line.as_bytes()), Ok(frame));
    assert_eq!(line_of_frame(&frame), line.to_ascii_uppercase().as_bytes());
}

#[test]
fn only_63_digits_are_a_line() {
    for length in 0..=130 {
        let is_line = frame_of_line(&vec![b'0'; length]).is_ok();
        assert_eq!(is_line, length == DIGITS);
    }
    for place in 0..DIGITS {
        for character in 0..=255 {
            let mut line = [b'0'; DIGITS];
            line[place] = character;
            let is_digit = b"0123456789abcdefABCDEF".contains(&character);
            assert_eq!(frame_of_line(&line).is_ok(), is_digit, "{character:02X} at {place}");
            assert_eq!(number(&line) == 17, !is_digit);
        }
    }
}

#[test]
fn a_line_is_17_and_then_as_its_frame() {
    let mut random = Random::new(63);
    for _ in 0..COUNT {
        let line = any_line(&mut random);
        match frame_of_line(&line) {
            Ok(frame) => assert_eq!(read_line(&line), read(&frame)),
            Err(refusal) => assert_eq!(refusal, Refusal::plain(17)),
        }
    }
    let spoiled = format!("{}13", "0".repeat(61));
    assert_eq!(number(spoiled.as_bytes()), 2);
    assert_eq!(number(spoiled.replace('1', "g").as_bytes()), 17);
}

#[test]
fn what_is_written_is_read_again_as_the_frame() {
    let mut random = Random::new(64);
    for _ in 0..COUNT {
        let frame = any_frame(&mut random);
        let mut lent = [b'.'; DIGITS + 2];
        let answer = write_line(&frame, &mut lent);
        let expected = match &frame[..] {
            frame if frame.len() != 32 => Err(Refusal::plain(1)),
            frame if frame[31] % 64 != 0 => Err(Refusal::plain(2)),
            _ => Ok(()),
        };
        assert_eq!(answer, expected);
        assert_eq!(&lent[DIGITS..], b"..");
        if answer.is_ok() {
            assert_eq!(frame_of_line(&lent[..DIGITS]).expect("it is a line")[..], frame[..]);
        } else {
            assert_eq!(lent, [b'.'; DIGITS + 2]);
        }
    }
}

#[test]
fn a_short_buffer_is_asked_after_last_and_left_alone() {
    for length in 0..DIGITS {
        let mut lent = vec![b'.'; length];
        assert_eq!(write_line(&[0; 31], &mut lent), Err(Refusal::plain(1)));
        assert_eq!(write_line(&[1; 32], &mut lent), Err(Refusal::plain(2)));
        assert_eq!(write_line(&[0; 32], &mut lent), Err(Refusal::plain(16)));
        assert!(lent.iter().all(|&byte| byte == b'.'));
    }
    assert_eq!(write_line(&[0; 32], &mut [b'.'; DIGITS]), Ok(()));
}

#[test]
fn each_builder_of_lines_reaches_what_it_is_meant_to() {
    let numbers = |build: fn(&mut Random) -> Vec<u8>| {
        let mut random = Random::new(65);
        let mut seen: Vec<u8> = (0..COUNT).map(|_| number(&build(&mut random))).collect();
        seen.sort();
        seen.dedup();
        seen
    };
    assert_eq!(numbers(valid_line), [0]);
    assert_eq!(numbers(any_frame_line), [0, 2, 3, 4, 5, 6, 7, 8, 10]);
    assert_eq!(numbers(padded_line), [0, 2, 4]);
    assert_eq!(numbers(digits_line), [2, 3, 4]);
    assert_eq!(numbers(length_line), [0, 17]);
    for build in [no_digit_line, ended_line, sentence_line, full_width_line, binary_line] {
        assert_eq!(numbers(build), [17]);
    }
    assert_eq!(numbers(any_line), [0, 2, 3, 4, 5, 6, 7, 8, 10, 17]);
}
