//! Writing a frame as a sentence.

use crate::frame_of;
use reference::bits::set;
use reference::generate::{any_frame, seal, valid_sentence};
use reference::line::frame_of_line;
use reference::random::Random;
use reference::read::read;
use reference::record::Refusal;
use reference::samples;
use reference::sentence::{
    read_sentence, write_sentence, CHECKSUM, LENGTH, LINE, SATELLITE, SATELLITES, SUMMED,
};

const COUNT: usize = 20_000;

/// Writes to a buffer of dots and sees that it is left alone where it is refused, and
/// behind the sentence.
fn written(satellite: u32, frame: &[u8], length: usize) -> Result<Vec<u8>, u8> {
    let mut lent = vec![b'.'; length];
    match write_sentence(satellite, frame, &mut lent) {
        Ok(()) => {
            assert!(lent[LENGTH..].iter().all(|&byte| byte == b'.'));
            lent.truncate(LENGTH);
            Ok(lent)
        }
        Err(refusal) => {
            assert!(lent.iter().all(|&byte| byte == b'.'));
            Err(refusal.number)
        }
    }
}

#[test]
fn only_the_listed_satellites_are_written() {
    let frame = frame_of(&samples::hypocenter()[0]);
    let look_alikes = [55 + 256, 55 << 8, 55 << 24, 0x3535, 0x3737_3737, u32::MAX - 200, u32::MAX];
    for satellite in (0..=300).chain(look_alikes) {
        let is_listed = [55, 56, 57, 58, 61].contains(&satellite);
        assert_eq!(written(satellite, &frame, LENGTH).is_ok(), is_listed);
        assert_eq!(written(satellite, &[], 0), Err(if is_listed { 1 } else { 20 }));
    }
}

/// 20, then each refusal of the frame, then 16: all at once, and the first mended.
#[test]
fn refusals_come_in_their_order() {
    let good = frame_of(&samples::hypocenter()[0]);
    let mut bad = good;
    set(&mut bad, 250, 6, 1);
    set(&mut bad, 0, 8, 0);
    for length in 0..LENGTH {
        assert_eq!(written(54, &bad[1..], length), Err(20));
        assert_eq!(written(55, &bad[1..], length), Err(1));
        assert_eq!(written(54, &bad, length), Err(20));
        assert_eq!(written(55, &bad, length), Err(2));
        assert_eq!(written(54, &good, length), Err(20));
        assert_eq!(written(55, &good, length), Err(16));
    }
    assert!(written(55, &good, LENGTH).is_ok());
    assert!(written(55, &good, LENGTH + 12).is_ok());
}

/// What is written is read again to the same satellite and frame, and is refused as
/// reading the frame is.
#[test]
fn there_and_back() {
    let mut random = Random::new(78);
    for _ in 0..COUNT {
        let frame = any_frame(&mut random);
        let satellite = random.pick(&SATELLITES);
        let length = random.pick(&[LENGTH, LENGTH + 1, LENGTH + 9]);
        let sentence = match (written(satellite.into(), &frame, length), read(&frame)) {
            (Ok(sentence), Ok(record)) => {
                let received = read_sentence(&sentence).expect("it was written");
                assert_eq!((received.satellite, received.record), (satellite, record));
                sentence
            }
            (Err(number), Err(refusal)) => {
                assert_eq!(number, refusal.number);
                continue;
            }
            (written, read) => panic!("{written:?} is not {read:?}"),
        };
        assert_eq!(frame_of_line(&sentence[LINE]).expect("63 digits")[..], frame);
        let capital = |digit| b"0123456789ABCDEF".contains(digit);
        assert!(sentence[LINE].iter().chain(&sentence[CHECKSUM]).all(capital));
    }
}

/// What was read is written again with capital digits, and with the checksum of those.
#[test]
fn back_and_there() {
    let mut random = Random::new(79);
    for _ in 0..COUNT {
        let sentence = valid_sentence(&mut random);
        let received = read_sentence(&sentence).expect("the sentence is valid");
        let frame = frame_of_line(&sentence[LINE]).expect("63 digits");
        let again = written(received.satellite.into(), &frame, LENGTH).expect("it was read");
        assert_eq!(again[SATELLITE], sentence[SATELLITE]);
        assert_eq!(again[SUMMED], sentence[SUMMED].to_ascii_uppercase());
    }
}

#[test]
fn the_value_of_the_frame_is_told() {
    let mut frame = frame_of(&samples::hypocenter()[0]);
    set(&mut frame, 105, 7, 102); // the magnitude
    seal(&mut frame);
    let mut lent = [0; LENGTH];
    let refusal = Refusal::out_of_range(105, 102);
    assert_eq!(write_sentence(58, &frame, &mut lent), Err(refusal));
    assert_eq!(write_sentence(59, &frame, &mut lent), Err(Refusal::plain(20)));
    assert_eq!(write_sentence(58, &frame, &mut lent[1..]), Err(refusal));
}
