//! Writing the bytes of a record to a frame, against the reference writer:
//! answer, place, value and all 32 bytes, and what a refusal leaves in the frame.

use crate::calls;
use crate::lent::{resized, Outcome};
use crate::meanings::agree_on_slots;
use crate::packed::{kept, packed, size, unused, Bytes, LENGTH};
use crate::spares::{note, numbers};
use crate::{lent, pattern, tuned, values, Count};
use reference::answer::Answer;
use reference::fields::{self, Field};
use reference::generate::{
    any_record, boundary_records, many_faults_record, set_number, slot_count, too_wide,
    valid_record, valid_slot,
};
use reference::random::Random;
use reference::record::{Category, Record};
use reference::samples;
use reference::write::write;

const ANY_RECORDS: usize = 1_000_000;
const STRAY_RECORDS: usize = 200_000;
const WIDE_RECORDS: usize = 200_000;
const FAULTY_RECORDS: usize = 25_000;
pub const FRAME_LENGTH: usize = 32;

/// Records of every kind that the reference builds, right ones and wrong ones.
pub fn any_records(count: &mut Count) {
    let mut random = Random::new(53);
    for _ in 0..ANY_RECORDS {
        agree(count, &any_record(&mut random), FRAME_LENGTH);
    }
}

/// Each field of each category at its bounds, just outside and far outside.
pub fn boundaries(count: &mut Count) {
    for record in all_boundary_records() {
        agree(count, &record, FRAME_LENGTH);
    }
}

/// Every two numbers that a record can have for the hour and the minute of an
/// area, with those behind it used or not.
pub fn arrivals(count: &mut Count) {
    let mut random = Random::new(60);
    for area in 0..slot_count(Category::Tsunami) {
        for (hour, minute) in (0..=u16::MAX).map(u16::to_be_bytes).map(<(u8, u8)>::from) {
            let mut record = valid_record(&mut random, Category::Tsunami);
            record.slots[..=area].fill(valid_slot(&mut random, Category::Tsunami));
            (record.slots[area].hour, record.slots[area].minute) = (hour, minute);
            agree(count, &record, FRAME_LENGTH);
        }
    }
}

/// Day, hour and minute of volcanic activity: every two numbers that a record can
/// have for two of them, with a normal number and the code for the third.
pub fn activities(count: &mut Count) {
    let mut random = Random::new(63);
    for group in fields::groups(Category::Volcano) {
        for (number, third) in group.iter().enumerate() {
            let mut others = group.clone();
            others.remove(number);
            let normal = third.allowed.first().map(|&(lowest, _)| lowest);
            for value in normal.into_iter().chain(third.group_code) {
                every_two_numbers(count, &mut random, &others, (*third, value));
            }
        }
    }
}

/// Every two numbers of a byte for two fields of category 8, beside a third.
fn every_two_numbers(
    count: &mut Count,
    random: &mut Random,
    fields: &[Field],
    (third, value): (Field, u64),
) {
    for numbers in (0..=u16::MAX).map(u16::to_be_bytes) {
        let mut record = valid_record(random, Category::Volcano);
        set_number(&mut record, third.first, value);
        for (field, number) in fields.iter().zip(numbers) {
            set_number(&mut record, field.first, number.into());
        }
        agree(count, &record, FRAME_LENGTH);
    }
}

/// Several faults at once in records of each category.
pub fn several_faults(count: &mut Count) {
    let mut random = Random::new(64);
    for category in Category::ALL {
        for _ in 0..FAULTY_RECORDS {
            agree(count, &many_faults_record(&mut random, category), FRAME_LENGTH);
        }
    }
}

/// Each spare of each category with numbers of all kinds that its bytes hold,
/// most of which do not fit its bits.
pub fn spares(count: &mut Count) {
    let mut random = Random::new(61);
    for category in Category::ALL {
        for (number, spare) in fields::spares(category).iter().enumerate() {
            for value in numbers(&mut random, 8 * size(spare.width)) {
                let mut record = valid_record(&mut random, category);
                record.spares[number] = value;
                agree(count, &record, FRAME_LENGTH);
            }
        }
    }
}

/// A spare too wide beside every field at its bounds and outside, and in records
/// of every kind.
pub fn wide_spares(count: &mut Count) {
    let mut random = Random::new(62);
    let mut records = all_boundary_records();
    records.extend((0..WIDE_RECORDS).map(|_| any_record(&mut random)));
    for record in records {
        let own = record.body.category().map_or(Vec::new(), fields::spares);
        for (number, spare) in own.iter().enumerate() {
            let mut record = record;
            record.spares[number] = too_wide(&mut random, spare.width);
            agree(count, &record, FRAME_LENGTH);
        }
    }
}

/// The values of document 004.
pub fn document_004(count: &mut Count) {
    for record in samples::all() {
        agree(count, &record, FRAME_LENGTH);
    }
}

/// A frame of another length is 1, whatever the record is, and stays as it
/// was.
pub fn frame_lengths(count: &mut Count) {
    let mut random = Random::new(54);
    for category in Category::ALL {
        for length in [0, 31, 33, 40] {
            agree(count, &valid_record(&mut random, category), length);
            agree(count, &any_record(&mut random), length);
            for record in boundary_records(&mut random, category) {
                agree(count, &record, length);
            }
            let record = valid_record(&mut random, category);
            let stray = with_stray(&mut random, &record);
            same(count, &stray, length, &refused(1, length));
        }
    }
}

/// Record bytes of another length are a record of zeros: 1 or 3.
pub fn record_lengths(count: &mut Count) {
    let mut random = Random::new(55);
    for category in Category::ALL {
        let record = packed(&valid_record(&mut random, category));
        for length in (0..=300).filter(|&length| length != LENGTH) {
            let bytes = resized(&record, length);
            for frame_length in [FRAME_LENGTH, 0, 31, 33, 40] {
                let expected = expected(&Record::default(), frame_length);
                same(count, &bytes, frame_length, &expected);
            }
        }
    }
}

/// Every bit where a category has nothing, set in a valid record: that is 11.
pub fn stray_bits(count: &mut Count) {
    let mut random = Random::new(56);
    for category in Category::ALL {
        let record = valid_record(&mut random, category);
        for place in unused(Some(category)) {
            for bit in 0..8 {
                let mut bytes = packed(&record);
                bytes[place] = 1 << bit;
                same(count, &bytes, FRAME_LENGTH, &refused(11, FRAME_LENGTH));
            }
        }
    }
}

/// The same in records of every kind: 3 and 7 come before 11, and 11 before
/// all else.
pub fn stray_records(count: &mut Count) {
    let mut random = Random::new(57);
    for _ in 0..STRAY_RECORDS {
        let record = any_record(&mut random);
        let bytes = with_stray(&mut random, &record);
        let number = match expected(&record, FRAME_LENGTH).answer.number {
            earlier @ (3 | 7) => earlier,
            _ => 11,
        };
        same(count, &bytes, FRAME_LENGTH, &refused(number, FRAME_LENGTH));
    }
}

/// Every first byte that is no category is 7, behind a bad preamble 3.
pub fn no_category(count: &mut Count) {
    let mut random = Random::new(58);
    for category in Category::ALL {
        for code in (0..=255).filter(|&code| Category::of_code(code.into()).is_none()) {
            let mut bytes = packed(&valid_record(&mut random, category));
            bytes[0] = code;
            same(count, &bytes, FRAME_LENGTH, &refused(7, FRAME_LENGTH));
            bytes[1] = 0;
            same(count, &bytes, FRAME_LENGTH, &refused(3, FRAME_LENGTH));
        }
    }
}

/// Every record of the comparisons above that is written is read again as
/// the same bytes.
pub fn there_and_back(count: &mut Count) {
    let mut random = Random::new(53);
    for _ in 0..ANY_RECORDS {
        back(count, &any_record(&mut random));
    }
    for record in all_boundary_records().iter().chain(&samples::all()) {
        back(count, record);
    }
}

fn back(count: &mut Count, record: &Record) {
    let bytes = packed(record);
    let written = outcome(&bytes, FRAME_LENGTH);
    if written.answer == Answer::FINE {
        let read = calls::read(&written.lent, &pattern(LENGTH));
        count.same(&bytes, &read, &Outcome::new(Answer::FINE, bytes.to_vec()));
        note(count, record, written.answer);
    }
}

fn all_boundary_records() -> Vec<Record> {
    let mut random = Random::new(59);
    Category::ALL.into_iter().flat_map(|one| boundary_records(&mut random, one)).collect()
}

/// Answer, value, place and the frame of so many bytes.
pub fn agree(count: &mut Count, record: &Record, length: usize) {
    let bytes = packed(record);
    let expected = expected(record, length);
    same(count, &bytes, length, &expected);
    agree_on_slots(count, &bytes, record);
    note(count, record, expected.answer);
    values::note(count, expected.answer);
}

/// What the proved writer does with record bytes, and the tuned one, is as expected.
fn same(count: &mut Count, bytes: &[u8], length: usize, expected: &Outcome) {
    count.same(bytes, &outcome(bytes, length), expected);
    tuned::agree_on_writing(count, bytes, expected);
}

/// What the proved writer does.
fn outcome(bytes: &[u8], length: usize) -> Outcome {
    calls::write(bytes, &pattern(length))
}

/// What the reference writer does.
fn expected(record: &Record, length: usize) -> Outcome {
    let mut frame = pattern(length);
    match write(&kept(record), &mut frame) {
        Ok(()) => Outcome::new(Answer::FINE, frame),
        Err(refusal) => Outcome::new(refusal.into(), pattern(length)),
    }
}

/// What a refusal that names no bit leaves of a frame of this length.
fn refused(number: u8, length: usize) -> Outcome {
    lent::refused(number, &pattern(length))
}

/// The bytes of a record with something in one place or more where its
/// category has nothing.
pub fn with_stray(random: &mut Random, record: &Record) -> Bytes {
    let mut bytes = packed(record);
    let places = unused(record.body.category());
    for _ in 0..1 + random.below(3) {
        bytes[random.pick(&places)] = 1 + random.below(255) as u8;
    }
    bytes
}
