//! Reading a frame into the bytes of a record, against the reference reader:
//! answer, place, value and every field, and what a refusal leaves in the buffer.

use crate::calls;
use crate::lent::{refused, Outcome};
use crate::meanings::agree_on_slots;
use crate::packed::{packed, place_of, Bytes, LENGTH, SLOTS, SLOT_LENGTH, TEXT};
use crate::spares::{note, numbers};
use crate::values::{self, value_of};
use crate::{door, pattern, tuned, Count};
use reference::answer::Answer;
use reference::bits::Frame;
use reference::fields::{self, slot_layout, Field};
use reference::generate::{
    any_frame, boundary_frames, frame_with_slots, many_faults_frame, raw_frame, slices,
    valid_frame, RawValue,
};
use reference::random::Random;
use reference::read::read;
use reference::record::{Category, Record, Refusal};
use reference::samples;
use reference::write::write;

const ANY_FRAMES: usize = 1_000_000;
const FAULTY_FRAMES: usize = 25_000;
const RENUMBERED_FRAMES: usize = 200;

/// The first rows of tables 4.1.2-16, 4.1.2-24, 4.1.2-33 and 4.1.2-45: a prefecture,
/// a forecast region, a place and a river that the samples never name.
const FIRST_PREFECTURE: u64 = 1;
const FIRST_REGION: u64 = 100;
const FIRST_PLACE: u64 = 110_000;
const FIRST_RIVER: u64 = 10_175_000_100;

/// Day, hour and minute of an area together.
const ARRIVAL_BITS: usize = 12;

/// Ambiguity, day, hour and minute of volcanic activity: where they begin, and all
/// their bits.
const ACTIVITY_FIRST: usize = 50;
const ACTIVITY_BITS: usize = 19;

/// The byte of the page number in category 4.
const PAGE_NUMBER: usize = 12;

/// Frames of every kind that the reference builds, right ones and wrong ones.
pub fn any_frames(count: &mut Count) {
    let mut random = Random::new(43);
    for _ in 0..ANY_FRAMES {
        agree(count, &any_frame(&mut random));
    }
}

/// Each field of each category at its bounds and just outside.
pub fn boundaries(count: &mut Count) {
    let mut random = Random::new(44);
    for category in Category::ALL {
        for frame in boundary_frames(&mut random, category) {
            agree(count, &frame);
        }
    }
}

/// Every day, hour and minute that the bits of an area can hold.
pub fn arrivals(count: &mut Count) {
    let mut random = Random::new(47);
    let layout = slot_layout(Category::Tsunami);
    for area in 0..layout.count {
        for value in 0..1 << ARRIVAL_BITS {
            let base = frame_with_slots(&mut random, Category::Tsunami, layout.count);
            let first = layout.slot_first(area);
            let arrival = RawValue { first, width: ARRIVAL_BITS, value };
            agree(count, &raw_frame(&base, &[arrival]));
        }
    }
}

/// Every day, hour and minute that their bits can hold for volcanic activity,
/// beside every ambiguity, which has no part in it.
pub fn activities(count: &mut Count) {
    let mut random = Random::new(49);
    for value in 0..1 << ACTIVITY_BITS {
        let base = valid_frame(&mut random, Category::Volcano);
        let time = RawValue { first: ACTIVITY_FIRST, width: ACTIVITY_BITS, value };
        agree(count, &raw_frame(&base, &[time]));
    }
}

/// Several faults at once in frames of each category.
pub fn several_faults(count: &mut Count) {
    let mut random = Random::new(50);
    for category in Category::ALL {
        for _ in 0..FAULTY_FRAMES {
            agree(count, &many_faults_frame(&mut random, category));
        }
    }
}

/// Right frames of each category under every number for a category, so that each is
/// judged by the table of another, or by none.
pub fn other_categories(count: &mut Count) {
    let mut random = Random::new(51);
    for category in Category::ALL {
        for value in 0..16 {
            for _ in 0..RENUMBERED_FRAMES {
                let base = valid_frame(&mut random, category);
                agree(count, &raw_frame(&base, &[RawValue { first: 17, width: 4, value }]));
            }
        }
    }
}

/// Each spare of each category with numbers of all kinds, and whatever the other
/// one holds.
pub fn spares(count: &mut Count) {
    let mut random = Random::new(48);
    for category in Category::ALL {
        for Field { first, width, .. } in fields::spares(category) {
            for value in numbers(&mut random, width) {
                let base = valid_frame(&mut random, category);
                agree(count, &raw_frame(&base, &[RawValue { first, width, value }]));
            }
        }
    }
}

/// Slices of 0 to 40 bytes, of which only those of 32 are frames.
pub fn slice_lengths(count: &mut Count) {
    let mut random = Random::new(45);
    for slice in slices(&mut random) {
        agree(count, &slice);
    }
}

/// A buffer of another length is 255, on a right frame and on any other, and
/// stays as it was. The value is asked of the frame alone.
pub fn buffer_lengths(count: &mut Count) {
    let mut random = Random::new(46);
    for category in Category::ALL {
        for frame in boundary_frames(&mut random, category) {
            for length in [0, LENGTH - 1, LENGTH + 1] {
                refused_buffer(count, &frame, length);
                refused_buffer(count, &valid_frame(&mut random, category), length);
                refused_buffer(count, &any_frame(&mut random), length);
            }
        }
    }
}

/// The values of document 004, and what it says of them in words.
pub fn document_004(count: &mut Count) {
    for record in samples::all() {
        let frame = frame_of(&record);
        agree(count, &frame);
        count.same(&frame, &bytes_of(&frame), &packed(&record));
    }
    silent_slots(count, &samples::intensity(), 9, FIRST_PREFECTURE);
    silent_slots(count, &samples::tsunami_warning(), 3, FIRST_REGION);
    silent_slots(count, &samples::tsunami_update(), 4, FIRST_REGION);
    silent_slots(count, &samples::tsunami_lifted(), 4, FIRST_REGION);
    silent_slots(count, &samples::volcano(), 3, FIRST_PLACE);
    silent_slots(count, &samples::flood_warning(), 1, FIRST_RIVER);
    silent_slots(count, &samples::flood_lifted(), 1, FIRST_RIVER);
    let pages = samples::nankai();
    for delivery in pages.chunks(pages.len() / 2) {
        let text = joined(delivery);
        count.same(&text, &text.as_slice(), &samples::NANKAI_TEXT.as_bytes());
    }
}

/// So many slots are used, and no empty one is named by a table's first row.
fn silent_slots(count: &mut Count, records: &[Record], used: usize, first_row: u64) {
    for record in records {
        let frame = frame_of(record);
        let places = places(&bytes_of(&frame));
        count.same(&frame, &places.len(), &used);
        count.same(&frame, &places.contains(&first_row), &false);
    }
}

/// Answer, value, place and every field of a frame.
pub fn agree(count: &mut Count, frame: &[u8]) {
    let theirs = read(frame);
    tuned::agree_on_reading(count, frame, &theirs);
    agree_on_record(count, frame, calls::read(frame, &pattern(LENGTH)), theirs);
}

/// What was read of a frame or of a line into a buffer of the pattern.
pub fn agree_on_record(
    count: &mut Count,
    input: &[u8],
    ours: Outcome,
    theirs: Result<Record, Refusal>,
) {
    agree_on_answer(count, input, ours, theirs.map(|record| (Answer::FINE, record)));
}

/// The same of what answers something where it reads a record.
pub fn agree_on_answer(
    count: &mut Count,
    input: &[u8],
    ours: Outcome,
    theirs: Result<(Answer, Record), Refusal>,
) {
    match theirs {
        Ok((answer, record)) => {
            count.same(input, &ours, &Outcome::new(answer, packed(&record).to_vec()));
            agree_on_slots(count, &ours.lent, &record);
            note(count, &record, Answer::FINE);
        }
        Err(refusal) => {
            count.same(input, &ours, &Outcome::new(refusal.into(), pattern(LENGTH)));
            values::note(count, refusal.into());
        }
    }
}

fn refused_buffer(count: &mut Count, frame: &[u8], length: usize) {
    let buffer = pattern(length);
    let expected = Outcome { asked: value_of(read(frame)), ..refused(255, &buffer) };
    count.same(frame, &calls::read(frame, &buffer), &expected);
}

/// The frame of a record that is valid.
pub fn frame_of(record: &Record) -> Frame {
    let mut frame = [0; 32];
    write(record, &mut frame).expect("a sample is valid");
    frame
}

/// The bytes that the proved reader gives.
pub fn bytes_of(frame: &Frame) -> Bytes {
    let mut bytes = [0; LENGTH];
    door::read(frame, &mut bytes);
    bytes
}

/// The places of the slots that are used.
fn places(bytes: &Bytes) -> Vec<u64> {
    let slots = bytes[SLOTS..TEXT].chunks(SLOT_LENGTH);
    slots.filter(|slot| slot.iter().any(|&byte| byte != 0)).map(place_of).collect()
}

/// The text of one delivery's pages, by page number, without the zeros that
/// fill up the last page.
fn joined(pages: &[Record]) -> Vec<u8> {
    let mut read: Vec<Bytes> = pages.iter().map(|page| bytes_of(&frame_of(page))).collect();
    read.sort_by_key(|bytes| bytes[PAGE_NUMBER]);
    let mut text: Vec<u8> = read.iter().flat_map(|bytes| bytes[TEXT..].to_vec()).collect();
    let length = text.iter().rposition(|&byte| byte != 0).map_or(0, |last| last + 1);
    text.truncate(length);
    text
}
