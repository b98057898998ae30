//! Reading a frame into a record.

use crate::bits::{get, Frame};
use crate::check::{faults, reported};
use crate::fields::{slot_layout, spares, RESERVED};
use crate::parity::parity;
use crate::record::{Angle, Body, Category, Hypocenter, Record, Refusal, Slot, Time, PREAMBLES};

/// The record of a frame, or the refusal that document 01 puts first.
pub fn read(frame: &[u8]) -> Result<Record, Refusal> {
    let frame: &Frame = frame.try_into().map_err(|_| Refusal::plain(1))?;
    let category = envelope(frame)?;
    let found = faults(category, &|field| get(frame, field.first, field.width));
    match reported(&found) {
        Some(refusal) => Err(refusal),
        None => Ok(record(frame, category)),
    }
}

/// Refusals 2 to 7, which come in the order of their numbers whatever bits
/// they are about. Each row is a number and whether the frame is right.
fn envelope(frame: &Frame) -> Result<Category, Refusal> {
    let preamble = get(frame, 0, 8);
    let rules = [
        (2, get(frame, 250, 6) == 0),
        (3, PREAMBLES.iter().any(|&known| u64::from(known) == preamble)),
        (4, get(frame, 226, 24) == u64::from(parity(frame, 226))),
        (5, get(frame, 8, 6) == 43),
        (6, get(frame, 214, 6) == 1),
    ];
    if let Some(&(number, _)) = rules.iter().find(|(_, right)| !right) {
        return Err(Refusal::plain(number));
    }
    Category::of_code(get(frame, 17, 4)).ok_or(Refusal::plain(7))
}

/// The values of a frame without faults. Empty slots are zeros in the frame
/// and so become zeros in the record.
fn record(frame: &Frame, category: Category) -> Record {
    Record {
        preamble: byte(frame, 0, 8),
        reserved: byte(frame, RESERVED.first, RESERVED.width),
        rc: byte(frame, 14, 3),
        month: byte(frame, 21, 4),
        day: byte(frame, 25, 5),
        hour: byte(frame, 30, 5),
        minute: byte(frame, 35, 6),
        it: byte(frame, 41, 2),
        spares: spare_values(frame, category),
        body: body(frame, category),
        slots: slots(frame, category),
        text: text(frame, category),
    }
}

fn spare_values(frame: &Frame, category: Category) -> [u64; 2] {
    let mut values = [0; 2];
    for (value, spare) in values.iter_mut().zip(spares(category)) {
        *value = get(frame, spare.first, spare.width);
    }
    values
}

fn body(frame: &Frame, category: Category) -> Body {
    match category {
        Category::Hypocenter => Body::Hypocenter(hypocenter(frame)),
        Category::Intensity => Body::Intensity(time(frame, 53)),
        Category::Nankai => Body::Nankai {
            serial: byte(frame, 53, 4),
            page: byte(frame, 201, 6),
            total: byte(frame, 207, 6),
        },
        Category::Tsunami => {
            Body::Tsunami { notifications: notifications(frame), warning: byte(frame, 80, 4) }
        }
        Category::Volcano => Body::Volcano {
            ambiguity: byte(frame, 50, 3),
            time: time(frame, 53),
            warning: byte(frame, 69, 7),
            volcano: short(frame, 76, 12),
        },
        Category::AshFall => Body::AshFall {
            time: time(frame, 53),
            warning: byte(frame, 69, 2),
            volcano: short(frame, 71, 12),
        },
        Category::Flood => Body::Flood,
    }
}

fn hypocenter(frame: &Frame) -> Hypocenter {
    Hypocenter {
        notifications: notifications(frame),
        time: time(frame, 80),
        depth: short(frame, 96, 9),
        magnitude: byte(frame, 105, 7),
        epicenter: short(frame, 112, 10),
        latitude: Angle {
            side: byte(frame, 122, 1),
            degrees: byte(frame, 123, 7),
            minutes: byte(frame, 130, 6),
            seconds: byte(frame, 136, 6),
        },
        longitude: Angle {
            side: byte(frame, 142, 1),
            degrees: byte(frame, 143, 8),
            minutes: byte(frame, 151, 6),
            seconds: byte(frame, 157, 6),
        },
    }
}

/// Categories 2 and 5 have their notifications at the same bits.
fn notifications(frame: &Frame) -> [u16; 3] {
    [short(frame, 53, 9), short(frame, 62, 9), short(frame, 71, 9)]
}

fn time(frame: &Frame, first: usize) -> Time {
    Time {
        day: byte(frame, first, 5),
        hour: byte(frame, first + 5, 5),
        minute: byte(frame, first + 10, 6),
    }
}

fn slots(frame: &Frame, category: Category) -> [Slot; 16] {
    let mut slots = [Slot::default(); 16];
    let layout = slot_layout(category);
    for (number, slot) in slots.iter_mut().enumerate().take(layout.count) {
        for (part, field) in layout.named_parts(number) {
            slot.set_part(part, get(frame, field.first, field.width));
        }
    }
    slots
}

fn text(frame: &Frame, category: Category) -> [u8; 18] {
    let mut text = [0; 18];
    if category == Category::Nankai {
        for (number, character) in text.iter_mut().enumerate() {
            *character = byte(frame, 57 + 8 * number, 8);
        }
    }
    text
}

/// A field of at most 8 bits.
fn byte(frame: &Frame, first: usize, width: usize) -> u8 {
    get(frame, first, width) as u8
}

/// A field of at most 16 bits.
fn short(frame: &Frame, first: usize, width: usize) -> u16 {
    get(frame, first, width) as u16
}
