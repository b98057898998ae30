//! The bytes of a record: what every record has, slots and text at their
//! places, and what its category has by the rows of the category's table.

use reference::fields::{fields, slot_layout, spares, Field};
use reference::record::{Category, Part, Record, Slot};
use reference::write::placed;
use std::ops::Range;

pub const LENGTH: usize = 251;
pub const SLOTS: usize = 41;
pub const SLOT_LENGTH: usize = 12;
pub const TEXT: usize = 233;

/// Where what a category has beside slots and text begins.
const OWN: usize = 9;

pub type Bytes = [u8; LENGTH];

/// A row of a category's table, with its first bit and the bytes it takes.
struct Row {
    first: usize,
    bytes: Range<usize>,
}

/// The record that its bytes can hold. A record of the reference may have a spare
/// that is wider than the bytes for it; it becomes the most that they hold, which
/// is too wide as well, but is another value.
pub fn kept(record: &Record) -> Record {
    let own = record.body.category().map_or(Vec::new(), spares);
    let mut kept = *record;
    for (value, spare) in kept.spares.iter_mut().zip(own) {
        *value = (*value).min(most(size(spare.width)));
    }
    kept
}

/// What stands nowhere in the record is zero. Of the spares, one that the category
/// does not have goes behind its last row, where it has nothing either; and without
/// a category none is there.
pub fn packed(record: &Record) -> Bytes {
    let mut bytes = [0; LENGTH];
    bytes[1] = record.preamble;
    bytes[2] = record.reserved;
    bytes[3] = record.rc;
    bytes[4] = record.month;
    bytes[5] = record.day;
    bytes[6] = record.hour;
    bytes[7] = record.minute;
    bytes[8] = record.it;
    if let Some(category) = record.body.category() {
        bytes[0] = category.code() as u8;
        put_own(&mut bytes, record, category);
    }
    for (number, slot) in record.slots.iter().enumerate() {
        put_slot(&mut bytes, SLOTS + SLOT_LENGTH * number, slot);
    }
    put(&mut bytes, TEXT, &record.text);
    bytes
}

/// The place that stands in the bytes of a slot.
pub fn place_of(slot: &[u8]) -> u64 {
    slot[part_bytes(Part::Place)].iter().fold(0, |sum, &byte| 256 * sum + u64::from(byte))
}

/// The bytes in which a category has nothing: those behind its last row, those of
/// the slots and parts of slots it does not have, and the text unless it has one.
/// Without a category it is all that categories have.
pub fn unused(category: Option<Category>) -> Vec<usize> {
    let Some(category) = category else {
        return (OWN..LENGTH).collect();
    };
    let slots = (SLOTS..TEXT).step_by(SLOT_LENGTH).enumerate();
    let in_slots = slots.flat_map(|(number, place)| unused_in_slot(category, number, place));
    let text_end = if category == Category::Nankai { TEXT } else { LENGTH };
    (end_of_rows(category)..SLOTS).chain(in_slots).chain(TEXT..text_end).collect()
}

/// The same in the slot of a number, which stands at a place of the bytes.
fn unused_in_slot(category: Category, number: usize, place: usize) -> Vec<usize> {
    let layout = slot_layout(category);
    let lacking = Part::ALL.into_iter().filter(|&part| number >= layout.count || !layout.has(part));
    lacking.flat_map(part_bytes).map(|byte| place + byte).collect()
}

/// What a category has beside slots and text, from Spare1 on in the order of
/// the frame, one behind the other.
fn rows(category: Category) -> Vec<Row> {
    let spare1 = spares(category)[0].first;
    let mut end = OWN;
    let row = |Field { first, width, .. }| {
        let start = end;
        end += size(width);
        Row { first, bytes: start..end }
    };
    fields(category).into_iter().filter(|field| field.first >= spare1).map(row).collect()
}

fn end_of_rows(category: Category) -> usize {
    rows(category).last().map_or(OWN, |row| row.bytes.end)
}

/// How many bytes a field of so many bits takes.
pub fn size(width: usize) -> usize {
    match width {
        0..=8 => 1,
        9..=16 => 2,
        17..=32 => 4,
        _ => 8,
    }
}

/// The most that so many bytes hold.
fn most(bytes: usize) -> u64 {
    u64::MAX >> (64 - 8 * bytes)
}

fn put_own(bytes: &mut Bytes, record: &Record, category: Category) {
    let numbers = placed(&kept(record), category);
    for row in rows(category) {
        let number = numbers.iter().find(|number| number.first == row.first);
        let value = number.expect("every field of the category is placed").value;
        let length = row.bytes.len();
        assert!(value <= most(length), "a number is wider than its bytes");
        put(bytes, row.bytes.start, &value.to_be_bytes()[8 - length..]);
    }
    for lacking in &record.spares[spares(category).len()..] {
        put(bytes, end_of_rows(category), &lacking.to_be_bytes());
    }
}

fn put(bytes: &mut Bytes, place: usize, part: &[u8]) {
    bytes[place..place + part.len()].copy_from_slice(part);
}

fn put_slot(bytes: &mut Bytes, place: usize, slot: &Slot) {
    for part in Part::ALL {
        let own = part_bytes(part);
        put(bytes, place + own.start, &slot.part(part).to_be_bytes()[8 - own.len()..]);
    }
}

/// The bytes of a slot in which a part stands.
fn part_bytes(part: Part) -> Range<usize> {
    match part {
        Part::Day => 0..1,
        Part::Hour => 1..2,
        Part::Minute => 2..3,
        Part::Strength => 3..4,
        Part::Place => 4..SLOT_LENGTH,
    }
}
