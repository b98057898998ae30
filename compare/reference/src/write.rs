//! Writing a record as a frame.

use crate::bits::{set, Frame};
use crate::check::{faults, reported};
use crate::fields::{slot_layout, spares, Field, SlotLayout, RESERVED};
use crate::parity::parity;
use crate::record::{
    Angle, Body, Category, Hypocenter, Part, Record, Refusal, Slot, Time, PREAMBLES,
};

/// A number of the record and where it goes in the frame. The number may be
/// too wide for its place; then it is also out of range.
#[derive(Clone, Copy, Debug)]
pub struct Placed {
    pub first: usize,
    pub width: usize,
    pub value: u64,
}

/// Writes the frame of a record into a lent buffer, or says which refusal
/// document 01 puts first. A refused writing leaves the buffer as it was.
pub fn write(record: &Record, frame: &mut [u8]) -> Result<(), Refusal> {
    if frame.len() != 32 {
        return Err(Refusal::plain(1));
    }
    if !PREAMBLES.contains(&record.preamble) {
        return Err(Refusal::plain(3));
    }
    let category = record.body.category().ok_or(Refusal::plain(7))?;
    if has_something_unused(record, category) {
        return Err(Refusal::plain(11));
    }
    let placed = placed(record, category);
    let mut found = faults(category, &|field| value_of(&placed, field));
    let reserved = u64::from(record.reserved);
    if !RESERVED.allows(reserved) {
        found.push(Refusal::out_of_range(RESERVED.first, reserved));
    }
    if let Some(refusal) = reported(&found) {
        return Err(refusal);
    }
    frame.copy_from_slice(&image(record, category, &placed));
    Ok(())
}

/// Whether something stands where the category has nothing.
fn has_something_unused(record: &Record, category: Category) -> bool {
    let layout = slot_layout(category);
    let (own_slots, other_slots) = record.slots.split_at(layout.count);
    let slot_too_many = other_slots.iter().any(|slot| *slot != Slot::default());
    let part_too_many = own_slots.iter().any(|slot| has_unused_part(slot, &layout));
    let text_elsewhere =
        category != Category::Nankai && record.text.iter().any(|&character| character != 0);
    let spare_too_many = record.spares[spares(category).len()..].iter().any(|&spare| spare != 0);
    slot_too_many || part_too_many || text_elsewhere || spare_too_many
}

/// Whether something stands in a part that the category's slots do not have.
fn has_unused_part(slot: &Slot, layout: &SlotLayout) -> bool {
    Part::ALL.into_iter().any(|part| !layout.has(part) && slot.part(part) != 0)
}

/// The value that the record gives a field. Every field of the tables is
/// placed, so a field that is not found is a mistake in this file.
fn value_of(placed: &[Placed], field: &Field) -> u64 {
    let here = placed.iter().find(|one| one.first == field.first && one.width == field.width);
    here.expect("every field of the category is placed").value
}

/// The frame of a record without faults, whose numbers fit their places.
fn image(record: &Record, category: Category, placed: &[Placed]) -> Frame {
    let mut frame = [0; 32];
    set(&mut frame, 0, 8, record.preamble.into());
    set(&mut frame, 8, 6, 43);
    set(&mut frame, 17, 4, category.code());
    set(&mut frame, 214, 6, 1);
    set(&mut frame, RESERVED.first, RESERVED.width, record.reserved.into());
    for one in placed {
        set(&mut frame, one.first, one.width, one.value);
    }
    let sum = parity(&frame, 226);
    set(&mut frame, 226, 24, sum.into());
    frame
}

/// Every number of the record that has a range or is text, with its place.
pub fn placed(record: &Record, category: Category) -> Vec<Placed> {
    let mut all = vec![
        place(14, 3, record.rc),
        place(21, 4, record.month),
        place(25, 5, record.day),
        place(30, 5, record.hour),
        place(35, 6, record.minute),
        place(41, 2, record.it),
    ];
    all.extend(place_body(record));
    all.extend(place_spares(&record.spares, category));
    all.extend(place_slots(&record.slots, category));
    all
}

fn place_body(record: &Record) -> Vec<Placed> {
    let mut all = Vec::new();
    match &record.body {
        Body::Nothing | Body::Flood => {}
        Body::Hypocenter(hypocenter) => all.extend(place_hypocenter(hypocenter)),
        Body::Intensity(time) => all.extend(place_time(53, time)),
        Body::Nankai { serial, page, total } => {
            all.push(place(53, 4, *serial));
            all.extend(place_text(&record.text));
            all.push(place(201, 6, *page));
            all.push(place(207, 6, *total));
        }
        Body::Tsunami { notifications, warning } => {
            all.extend(place_notifications(notifications));
            all.push(place(80, 4, *warning));
        }
        Body::Volcano { ambiguity, time, warning, volcano } => {
            all.push(place(50, 3, *ambiguity));
            all.extend(place_time(53, time));
            all.push(place(69, 7, *warning));
            all.push(place(76, 12, *volcano));
        }
        Body::AshFall { time, warning, volcano } => {
            all.extend(place_time(53, time));
            all.push(place(69, 2, *warning));
            all.push(place(71, 12, *volcano));
        }
    }
    all
}

fn place(first: usize, width: usize, value: impl Into<u64>) -> Placed {
    Placed { first, width, value: value.into() }
}

fn place_spares(values: &[u64; 2], category: Category) -> Vec<Placed> {
    let own = spares(category).into_iter().zip(values);
    own.map(|(spare, &value)| place(spare.first, spare.width, value)).collect()
}

fn place_time(first: usize, time: &Time) -> [Placed; 3] {
    [place(first, 5, time.day), place(first + 5, 5, time.hour), place(first + 10, 6, time.minute)]
}

/// Categories 2 and 5 have their notifications at the same bits.
fn place_notifications(notifications: &[u16; 3]) -> Vec<Placed> {
    let numbered = notifications.iter().enumerate();
    numbered.map(|(number, &notification)| place(53 + 9 * number, 9, notification)).collect()
}

fn place_hypocenter(hypocenter: &Hypocenter) -> Vec<Placed> {
    let mut all = place_notifications(&hypocenter.notifications);
    all.extend(place_time(80, &hypocenter.time));
    all.push(place(96, 9, hypocenter.depth));
    all.push(place(105, 7, hypocenter.magnitude));
    all.push(place(112, 10, hypocenter.epicenter));
    all.extend(place_angle(122, 7, &hypocenter.latitude));
    all.extend(place_angle(142, 8, &hypocenter.longitude));
    all
}

/// Degrees of longitude need one bit more than degrees of latitude.
fn place_angle(first: usize, degrees_width: usize, angle: &Angle) -> [Placed; 4] {
    let after_degrees = first + 1 + degrees_width;
    [
        place(first, 1, angle.side),
        place(first + 1, degrees_width, angle.degrees),
        place(after_degrees, 6, angle.minutes),
        place(after_degrees + 6, 6, angle.seconds),
    ]
}

fn place_text(text: &[u8; 18]) -> Vec<Placed> {
    let numbered = text.iter().enumerate();
    numbered.map(|(number, &character)| place(57 + 8 * number, 8, character)).collect()
}

fn place_slots(slots: &[Slot; 16], category: Category) -> Vec<Placed> {
    let layout = slot_layout(category);
    let mut all = Vec::new();
    for (number, slot) in slots.iter().enumerate().take(layout.count) {
        let parts = layout.named_parts(number).into_iter();
        all.extend(parts.map(|(part, field)| place(field.first, field.width, slot.part(part))));
    }
    all
}
