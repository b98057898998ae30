//! Sentences of a receiver, to records and back.

mod builders;
mod refusals;
mod writing;

use reference::bits::Frame;
use reference::line::line_of_frame;
use reference::record::Record;
use reference::samples;
use reference::sentence::{checksum, read_sentence, write_sentence, Received, LENGTH, SATELLITES};
use reference::write::write;

/// The first report of document 004 from satellite 55. Its checksum, by hand: what
/// comes twice goes, so both Q go, both commas and both 5 of the satellite, and of the
/// head `Z` 5A, `S` 53 and `M` 4D are left, which make 44. Of the digits these come an
/// odd number of times: 3 (33), 4 (34), 9 (39), A (41), C (43), E (45) and F (46). From
/// the left they make 33, 07, 3E, 7F, 3C, 79, 3F. And 3F with 44 is 7B.
const EXAMPLE: &[u8; LENGTH] =
    b"$QZQSM,55,53AF91AC82800388000059051440C5C82A010830000000000000001030930E4*7B\r\n";

fn number(sentence: &[u8]) -> u8 {
    read_sentence(sentence).map_or_else(|refusal| refusal.number, |_| 0)
}

fn frame_of(record: &Record) -> Frame {
    let mut frame = [0; 32];
    write(record, &mut frame).expect("a sample is valid");
    frame
}

/// The sentence around any satellite and digits, with a checksum of its own.
fn sentence(satellite: &str, digits: &str) -> Vec<u8> {
    let body = format!("QZQSM,{satellite},{digits}");
    format!("${body}*{:02X}\r\n", checksum(body.as_bytes())).into_bytes()
}

#[test]
fn the_example_worked_out_by_hand() {
    let record = samples::hypocenter()[0];
    assert_eq!(read_sentence(EXAMPLE), Ok(Received { satellite: 55, record }));
    let mut written = [0; LENGTH];
    assert_eq!(write_sentence(55, &frame_of(&record), &mut written), Ok(()));
    assert_eq!(&written, EXAMPLE);
    // With 61 for 55 there are `6` 36 and `1` 31, which make 07, and 7B with 07 is 7C.
    let moved = String::from_utf8(EXAMPLE.to_vec()).expect("it is plain text");
    let moved = moved.replace(",55,", ",61,").replace("*7B", "*7C");
    assert_eq!(read_sentence(moved.as_bytes()), Ok(Received { satellite: 61, record }));
}

/// 63 zeros are one zero, 30: with 44 of the head that is 74. Satellite 56 makes it 77,
/// since `5` 35 and `6` 36 make 03.
#[test]
fn sixty_three_zeros_by_hand() {
    let zeros = "0".repeat(63);
    assert_eq!(number(format!("$QZQSM,55,{zeros}*74\r\n").as_bytes()), 3);
    assert_eq!(number(format!("$QZQSM,56,{zeros}*77\r\n").as_bytes()), 3);
    assert_eq!(number(format!("$QZQSM,55,{zeros}*77\r\n").as_bytes()), 19);
    assert_eq!(number(format!("$QZQSM,56,{zeros}*74\r\n").as_bytes()), 19);
}

#[test]
fn a_checksum_is_the_exclusive_or() {
    assert_eq!(checksum(b""), 0);
    assert_eq!(checksum(b"A"), 0x41);
    assert_eq!(checksum(b"AA"), 0);
    assert_eq!(checksum(&[0xFF, 0x0F]), 0xF0);
    // The head and its commas alone: each character counts, once.
    assert_eq!(checksum(b"QZQSM,,"), 0x44);
}

/// All samples from all satellites, there and back, in capitals and small letters.
#[test]
fn every_sample_from_every_satellite() {
    for record in samples::all() {
        let frame = frame_of(&record);
        for satellite in SATELLITES {
            let mut written = [0; LENGTH];
            assert_eq!(write_sentence(satellite.into(), &frame, &mut written), Ok(()));
            assert_eq!(read_sentence(&written), Ok(Received { satellite, record }));
            let digits = String::from_utf8(line_of_frame(&frame).to_vec()).expect("plain text");
            assert_eq!(written[..], sentence(&satellite.to_string(), &digits));
            let small = sentence(&satellite.to_string(), &digits.to_lowercase());
            assert_eq!(read_sentence(&small), Ok(Received { satellite, record }));
        }
    }
}

/// The checksum is that of the letters as they stand, and is told in either case.
#[test]
fn letters_are_read_in_either_case() {
    let text = String::from_utf8(EXAMPLE.to_vec()).expect("it is plain text");
    assert_eq!(number(text.replace("*7B", "*7b").as_bytes()), 0);
    // A small letter is 20 more than a capital one: one of them alone makes 5B of 7B.
    assert_eq!(number(text.replace("0E4", "0e4").as_bytes()), 19);
    assert_eq!(number(text.replace("0E4*7B", "0e4*5B").as_bytes()), 0);
    assert_eq!(number(text.replace("0E4*7B", "0e4*5b").as_bytes()), 0);
    assert_eq!(number(text.replace("$QZQSM", "$qzqsm").as_bytes()), 18);
}
