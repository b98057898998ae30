//! What was written is read again, and what was read is written again.

use super::{agree, agree_on_writing, cases, fine, record_of};
use crate::calls;
use crate::lent::Outcome;
use crate::packed::{packed, LENGTH as RECORD_LENGTH};
use crate::reading::frame_of;
use crate::{door, pattern, Count};
use reference::answer::Answer;
use reference::generate::{any_frame, any_sentence, sentence_around, valid_frame};
use reference::line::frame_of_line;
use reference::random::Random;
use reference::record::Category;
use reference::samples;
use reference::sentence::{LENGTH, LINE, SATELLITES, SUMMED};

const ANY_FRAMES: usize = 300_000;
const VALID_FRAMES: usize = 20_000;

/// What was written as a sentence is read to the same satellite, and to the record
/// that reading the frame gives.
pub fn there_and_back(count: &mut Count) {
    let mut random = Random::new(157);
    for _ in 0..ANY_FRAMES {
        let satellite = random.pick(&SATELLITES);
        back(count, satellite, &any_frame(&mut random));
    }
    for category in Category::ALL {
        for _ in 0..VALID_FRAMES {
            let satellite = random.pick(&SATELLITES);
            let frame = valid_frame(&mut random, category);
            back(count, satellite, &frame);
        }
    }
}

/// What was read is written to the same satellite and the same digits in capitals.
pub fn back_and_there(count: &mut Count) {
    let mut random = Random::new(158);
    for _ in 0..ANY_FRAMES {
        let sentence = any_sentence(&mut random);
        let answer = door::read_sentence(&sentence, &mut [0; RECORD_LENGTH]);
        if answer.number != Answer::FINE.number {
            continue;
        }
        let frame = frame_of_line(&sentence[LINE]).expect("what is read has 63 digits");
        let again = written(answer.mark, &frame);
        count.same(&sentence, &again.answer, &Answer::FINE);
        let capitals = sentence[SUMMED].to_ascii_uppercase();
        count.same(&sentence, &&again.lent[SUMMED], &&capitals[..]);
    }
}

/// Every report of document 004 from every satellite, in capitals, in small letters
/// and in both, written and read again.
pub fn document_004(count: &mut Count) {
    for record in samples::all() {
        let frame = frame_of(&record);
        for satellite in SATELLITES {
            agree_on_writing(count, satellite.into(), &frame, LENGTH);
            back(count, satellite, &frame);
            for line in cases(&frame) {
                let sentence = sentence_around(satellite.to_string().as_bytes(), &line);
                agree(count, &sentence);
                let expected = Outcome::new(fine(satellite), packed(&record).to_vec());
                count.same(&sentence, &record_of(&sentence, RECORD_LENGTH), &expected);
            }
        }
    }
}

/// Writing refuses what reading the frame refuses, with its value. Where it does not,
/// the sentence is read again.
fn back(count: &mut Count, satellite: u8, frame: &[u8]) {
    let read = calls::read(frame, &pattern(RECORD_LENGTH));
    let sentence = written(satellite, frame);
    count.same(frame, &(sentence.answer, sentence.asked), &(read.answer, read.asked));
    if read.answer == Answer::FINE {
        let expected = Outcome { answer: fine(satellite), ..read };
        count.same(frame, &record_of(&sentence.lent, RECORD_LENGTH), &expected);
        count.note("read again");
    }
}

/// What the proved writer does with a frame and a buffer that is just long enough.
fn written(satellite: u8, frame: &[u8]) -> Outcome {
    calls::write_sentence(satellite.into(), frame, &pattern(LENGTH))
}
