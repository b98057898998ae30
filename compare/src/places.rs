//! How places stand to the list of places, against the reference: numbers of all
//! kinds, and the places of frames, which are read whether they are listed or not.

use crate::meanings::PLACE_BITS;
use crate::packed::{place_of, Bytes, LENGTH, SLOTS, SLOT_LENGTH, TEXT};
use crate::reading::{self, bytes_of, frame_of};
use crate::{door, Count};
use reference::answer::Answer;
use reference::bits::Frame;
use reference::fields::slot_layout;
use reference::generate::{
    any_place, frame_with_places, place_field, raw_frame, RawValue, WITH_PLACES,
};
use reference::place::{standing, Standing, CODES};
use reference::random::Random;
use reference::record::{Category, Refusal};
use reference::samples;

const RANDOM_NUMBERS: usize = 1_000_000;
const RANDOM_FRAMES: usize = 50_000;

/// The ends of the range for a place, of which the list has both.
const LOWEST: u64 = 110_000;
const HIGHEST: u64 = 4_799_999;

/// Every place that a frame can have.
pub fn every_place(count: &mut Count) {
    (0..1 << PLACE_BITS).for_each(|place| agree(count, place));
}

/// Every code of the list and its neighbours, and wider numbers, which look like them
/// where their low bits alone are seen, or their high ones.
pub fn look_alikes(count: &mut Count) {
    for place in codes_and_neighbours() {
        agree(count, place);
        agree(count, place << 32);
        agree(count, place << 32 | place);
        agree(count, u64::MAX - place);
        for bit in PLACE_BITS..u64::BITS {
            agree(count, (1 << bit) + place);
            agree(count, (1 << bit) - 1 - place);
            agree(count, u64::MAX - (1 << bit) + 1 + place);
        }
    }
}

/// Any numbers, those of all lengths, and codes of the list below any bits.
pub fn any_numbers(count: &mut Count) {
    let mut random = Random::new(133);
    for _ in 0..RANDOM_NUMBERS {
        agree(count, random.next_number());
        let length = 1 + random.below(64);
        agree(count, random.bits(length));
        let above = random.next_number() << PLACE_BITS;
        agree(count, above | u64::from(random.pick(&CODES)));
    }
}

/// Every slot of every frame of document 004. The places that it names are listed.
/// Slots of other categories name something else, and an empty slot names nothing:
/// neither the first row of the list nor any other place.
pub fn document_004(count: &mut Count) {
    for record in samples::all() {
        let frame = frame_of(&record);
        let category = record.body.category().expect("a sample has a category");
        for place in places(&bytes_of(&frame)) {
            let is_listed = WITH_PLACES.contains(&category) && place != 0;
            count.same(&frame, &door::standing(place), &is_listed.into());
            agree(count, place);
            count.note(if place == 0 { "of an empty slot" } else { "of a used slot" });
        }
    }
}

/// Frames with places of all kinds, all of which are read.
pub fn frames(count: &mut Count) {
    let mut random = Random::new(134);
    for category in WITH_PLACES {
        for _ in 0..RANDOM_FRAMES {
            let used = 1 + random.below(slot_layout(category).count);
            let places = any_places(&mut random, category, used);
            let frame = frame_with_places(&mut random, category, &places);
            agree_on_frame(count, &frame, &places, Answer::FINE);
        }
    }
}

/// Every code of the list and its neighbours in every slot, and some numbers beside.
/// Of those that are out of range, 100000 and 109999 lie in a prefecture and are
/// refused all the same.
pub fn codes_in_frames(count: &mut Count) {
    let mut random = Random::new(135);
    let others = [1, 99_999, 100_000, (1 << PLACE_BITS) - 1];
    for category in WITH_PLACES {
        for slot in 0..slot_layout(category).count {
            for place in codes_and_neighbours().chain(others) {
                let mut places = any_places(&mut random, category, slot + 1);
                places[slot] = place;
                let frame = frame_with_places(&mut random, category, &places);
                let refusal = Refusal::out_of_range(place_field(category, slot).first, place);
                let is_read = (LOWEST..=HIGHEST).contains(&place);
                let expected = if is_read { Answer::FINE } else { refusal.into() };
                agree_on_frame(count, &frame, &places, expected);
            }
        }
    }
}

/// Frames with two places out of range, of which the first is told, and with one
/// behind an empty slot, where the gap is told before the place.
pub fn several_faults(count: &mut Count) {
    const WRONG: [u64; 6] = [1, 99_999, 100_000, 109_999, 4_800_000, (1 << PLACE_BITS) - 1];
    let mut random = Random::new(136);
    for category in WITH_PLACES {
        let slots = slot_layout(category);
        for slot in 0..slots.count - 1 {
            for (first, second) in WRONG.iter().flat_map(|&a| WRONG.map(|b| (a, b))) {
                let mut places = any_places(&mut random, category, slot + 2);
                (places[slot], places[slot + 1]) = (first, second);
                let frame = frame_with_places(&mut random, category, &places);
                let refusal = Refusal::out_of_range(place_field(category, slot).first, first);
                agree_on_frame(count, &frame, &places, refusal.into());
                if slot > 0 {
                    let empty =
                        RawValue { first: slots.slot_first(slot), width: slots.width, value: 0 };
                    let refusal = Refusal::slot_after_empty(slots.slot_first(slot + 1));
                    agree_on_frame(count, &raw_frame(&frame, &[empty]), &places, refusal.into());
                }
            }
        }
    }
}

fn codes_and_neighbours() -> impl Iterator<Item = u64> {
    CODES.iter().map(|&code| u64::from(code)).flat_map(|code| code - 1..=code + 1)
}

fn any_places(random: &mut Random, category: Category, used: usize) -> Vec<u64> {
    (0..used).map(|_| any_place(random, category)).collect()
}

/// The frame of these places is read or refused as is expected. Where it is read, its
/// used slots have the places, none of which is outside, and the empty ones have none.
fn agree_on_frame(count: &mut Count, frame: &Frame, expected: &[u64], answer: Answer) {
    reading::agree(count, frame);
    let mut bytes = [0; LENGTH];
    count.same(frame, &door::read(frame, &mut bytes), &answer);
    if answer != Answer::FINE {
        return count.note("in a frame that is refused");
    }
    let read = places(&bytes);
    count.same(frame, &&read[..expected.len()], &expected);
    for (slot, &place) in read.iter().enumerate() {
        agree(count, place);
        count.same(frame, &(door::standing(place) == 0), &(slot >= expected.len()));
    }
}

/// The place of each slot, used or not.
fn places(bytes: &Bytes) -> Vec<u64> {
    bytes[SLOTS..TEXT].chunks(SLOT_LENGTH).map(place_of).collect()
}

fn agree(count: &mut Count, place: u64) {
    let (kind, expected) = match standing(place) {
        Standing::Listed => ("listed", 1),
        Standing::Unlisted => ("unlisted", 2),
        Standing::Outside => ("outside", 0),
    };
    count.same(&place.to_be_bytes(), &door::standing(place), &expected);
    count.note(kind);
}
