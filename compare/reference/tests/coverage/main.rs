//! The builders of test inputs reach what they are meant to reach.

mod codes;
mod spares;

use reference::bits::Frame;
use reference::fields::{fields_and_parts, groups, slot_layout};
use reference::generate::*;
use reference::random::Random;
use reference::read::read;
use reference::record::{Category, Record, Refusal};
use reference::write::write;
use std::collections::BTreeSet;

const COUNT: usize = 20_000;

/// Numbers and places that come up; 0 stands for an input not refused.
#[derive(Default)]
struct Seen(BTreeSet<(u8, u8)>);

impl Seen {
    fn note<T>(&mut self, answer: Result<T, Refusal>) {
        self.0.insert(answer.map_or_else(|why| (why.number, why.place), |_| (0, 0)));
    }

    fn numbers(&self) -> Vec<u8> {
        let numbers: BTreeSet<u8> = self.0.iter().map(|&(number, _)| number).collect();
        numbers.into_iter().collect()
    }

    fn places(&self, number: u8) -> Vec<usize> {
        let of_number = self.0.iter().filter(|seen| seen.0 == number);
        of_number.map(|&(_, place)| usize::from(place)).collect()
    }
}

fn read_all<Bytes: AsRef<[u8]>>(frames: impl IntoIterator<Item = Bytes>) -> Seen {
    let mut seen = Seen::default();
    frames.into_iter().for_each(|frame| seen.note(read(frame.as_ref())));
    seen
}

fn write_all(records: impl IntoIterator<Item = Record>) -> Seen {
    let mut seen = Seen::default();
    records.into_iter().for_each(|record| seen.note(write(&record, &mut [0; 32])));
    seen
}

/// All categories in turn.
fn categories() -> impl Iterator<Item = Category> {
    Category::ALL.into_iter().cycle().take(COUNT)
}

/// Many frames of a builder over all categories.
fn frames_of(build: fn(&mut Random, Category) -> Frame) -> Seen {
    let mut random = Random::new(7);
    read_all(categories().map(|category| build(&mut random, category)))
}

fn records_of(build: fn(&mut Random, Category) -> Record) -> Seen {
    let mut random = Random::new(8);
    write_all(categories().map(|category| build(&mut random, category)))
}

#[test]
fn each_frame_builder_reaches_its_refusals() {
    assert_eq!(frames_of(valid_frame).numbers(), [0]);
    assert_eq!(frames_of(boundary_frame).numbers(), [0, 8, 10]);
    assert_eq!(frames_of(spare_frame).numbers(), [0]);
    assert_eq!(frames_of(envelope_fault_frame).numbers(), [2, 3, 4, 5, 6, 7]);
    assert_eq!(frames_of(many_faults_frame).numbers(), [0, 2, 3, 4, 5, 6, 7, 8, 10]);
    assert_eq!(frames_of(random_stretch_frame).numbers(), [0, 7, 8, 10]);
    assert_eq!(frames_of(flipped_frame).numbers(), [0, 2, 3, 4, 5, 6, 7, 8, 10]);
    assert_eq!(frames_of(|random, _| gap_frame(random)).numbers(), [10]);
    assert_eq!(frames_of(|random, _| half_filled_frame(random)).numbers(), [8]);
    assert_eq!(frames_of(|random, _| random_slots_frame(random)).numbers(), [0, 8, 10]);
    assert_eq!(frames_of(|random, _| page_frame(random)).places(8), [201, 207]);
    let random_sealed = frames_of(|random, _| random_sealed_frame(random)).numbers();
    assert!([3, 8].iter().all(|number| random_sealed.contains(number)));
}

#[test]
fn slices_of_every_length_are_refused_but_one() {
    let mut random = Random::new(9);
    let all = slices(&mut random);
    assert_eq!(all.len(), 82);
    for bytes in all {
        let refused_for_length = read(&bytes) == Err(Refusal::plain(1));
        assert_eq!(refused_for_length, bytes.len() != 32);
    }
    assert_eq!(read_all((0..100).map(|_| random_bytes(&mut random, 31))).numbers(), [1]);
}

#[test]
fn any_frame_reaches_every_refusal() {
    let mut random = Random::new(10);
    let seen = read_all((0..10 * COUNT).map(|_| any_frame(&mut random)));
    assert_eq!(seen.numbers(), [0, 1, 2, 3, 4, 5, 6, 7, 8, 10]);
}

#[test]
fn any_record_reaches_every_refusal() {
    let mut random = Random::new(11);
    let mut seen = write_all((0..10 * COUNT).map(|_| any_record(&mut random)));
    seen.note(write(&any_record(&mut random), &mut [0; 31]));
    assert_eq!(seen.numbers(), [0, 1, 3, 7, 8, 10, 11]);
}

#[test]
fn each_record_builder_reaches_its_refusals() {
    assert_eq!(records_of(valid_record).numbers(), [0]);
    assert_eq!(records_of(boundary_record).numbers(), [0, 8, 10]);
    assert_eq!(records_of(unused_filled_record).numbers(), [11]);
    assert_eq!(records_of(bad_preamble_record).numbers(), [3]);
    assert_eq!(records_of(spare_record).numbers(), [0, 8]);
    assert_eq!(records_of(many_faults_record).numbers(), [0, 8, 10, 11]);
    assert_eq!(records_of(random_record).numbers(), [0, 3, 8, 10, 11]);
    assert_eq!(records_of(|random, _| gap_record(random)).numbers(), [10]);
    assert_eq!(records_of(|random, _| half_filled_record(random)).numbers(), [8, 10]);
    assert_eq!(records_of(|random, _| no_category_record(random)).numbers(), [3, 7]);
    assert_eq!(records_of(|random, _| page_record(random)).places(8), [201, 207]);
}

/// The places where a category's fields can be out of range: in a record all of
/// them, in a frame not those of a spare or of a single bit, where all that the
/// bits hold is in range.
fn places_out_of_range(category: Category, in_frame: bool) -> Vec<usize> {
    let mut rows = fields_and_parts(category);
    rows.retain(|row| !in_frame || row.allowed != [(0, (1 << row.width) - 1)]);
    let mut places: Vec<_> = rows.iter().map(|row| row.first).collect();
    places.sort();
    places
}

#[test]
fn boundary_inputs_reach_every_field() {
    let mut random = Random::new(12);
    for category in Category::ALL {
        let frames = read_all(boundary_frames(&mut random, category));
        assert!(frames.numbers().contains(&0));
        assert_eq!(frames.places(8), places_out_of_range(category, true));
        let records = write_all(boundary_records(&mut random, category));
        assert!(records.numbers().contains(&0));
        let mut expected = places_out_of_range(category, false);
        expected.push(220);
        assert_eq!(records.places(8), expected);
    }
}

/// Whether a slot may name this place.
fn allows_place(category: Category, place: u64) -> bool {
    slot_layout(category).count > 0 && place_field(category, 0).allows(place)
}

/// The builders pick their categories from lists, which must be those of the tables.
#[test]
fn the_lists_of_categories_leave_none_out() {
    let those = |has: fn(Category) -> bool| {
        Category::ALL.into_iter().filter(|&category| has(category)).collect::<Vec<_>>()
    };
    assert_eq!(those(|category| slot_layout(category).count > 0), WITH_SLOTS);
    assert_eq!(those(|category| slot_layout(category).parts(0).len() > 1), WITH_PARTS);
    assert_eq!(those(|category| !groups(category).is_empty()), WITH_GROUPS);
    assert_eq!(those(|category| allows_place(category, 4_321_400)), WITH_PLACES);
}

#[test]
fn gaps_reach_every_slot_that_can_have_one_before_it() {
    let mut expected = BTreeSet::new();
    for layout in Category::ALL.map(slot_layout) {
        expected.extend((2..layout.count).map(|slot| layout.slot_first(slot)));
    }
    let expected = Vec::from_iter(expected);
    assert_eq!(frames_of(|random, _| gap_frame(random)).places(10), expected);
    assert_eq!(records_of(|random, _| gap_record(random)).places(10), expected);
}

#[test]
fn half_filled_slots_reach_every_part_that_must_not_be_zero() {
    let mut expected = BTreeSet::new();
    for layout in Category::ALL.map(slot_layout) {
        let mut slots: Vec<_> = (0..layout.count).map(|slot| layout.parts(slot)).collect();
        // A slot with one part is empty where that is zero.
        slots.retain(|parts| parts.len() > 1);
        let parts = slots.into_iter().flatten();
        expected.extend(parts.filter(|part| !part.allows(0)).map(|part| part.first));
    }
    let expected = Vec::from_iter(expected);
    assert_eq!(frames_of(|random, _| half_filled_frame(random)).places(8), expected);
    assert_eq!(records_of(|random, _| half_filled_record(random)).places(8), expected);
}
