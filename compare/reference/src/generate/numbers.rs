//! The numbers of a record by the bits of the frame that they go to.

use crate::fields::{slot_layout, spares};
use crate::random::Random;
use crate::record::{Body, Hypocenter, Part, Record, Slot, Time};

/// A number that does not fit so many bits, whatever its low bits say.
pub fn too_wide(random: &mut Random, width: usize) -> u64 {
    let above = width + random.below(64 - width);
    1 << above | random.bits(width)
}

/// Sets the number that goes to a bit of the frame. A value above what the
/// record's number can hold becomes the most that it can hold.
pub fn set_number(record: &mut Record, first: usize, value: u64) {
    match first {
        14 => record.rc = byte(value),
        21 => record.month = byte(value),
        25 => record.day = byte(value),
        30 => record.hour = byte(value),
        35 => record.minute = byte(value),
        41 => record.it = byte(value),
        220 => record.reserved = byte(value),
        _ => set_by_category(record, first, value),
    }
}

fn set_by_category(record: &mut Record, first: usize, value: u64) {
    if let Some(spare) = spare_at(record, first) {
        *spare = value;
    } else if let Some((slot, part)) = part_at(record, first) {
        slot.set_part(part, value);
    } else {
        set_in_body(&mut record.body, first, value);
    }
}

/// The spare of the record's category that begins at a bit.
fn spare_at(record: &mut Record, first: usize) -> Option<&mut u64> {
    let own = spares(record.body.category()?);
    let number = own.iter().position(|spare| spare.first == first)?;
    record.spares.get_mut(number)
}

/// The slot of the record's category, and its part, that begins at a bit.
fn part_at(record: &mut Record, first: usize) -> Option<(&mut Slot, Part)> {
    let layout = slot_layout(record.body.category()?);
    let own = record.slots.iter_mut().enumerate().take(layout.count);
    let mut parts = own.filter_map(|(number, slot)| {
        let parts = layout.named_parts(number);
        let (part, _) = parts.into_iter().find(|(_, field)| field.first == first)?;
        Some((slot, part))
    });
    parts.next()
}

fn set_in_body(body: &mut Body, first: usize, value: u64) {
    match body {
        Body::Nothing | Body::Flood => {}
        Body::Hypocenter(hypocenter) => set_in_hypocenter(hypocenter, first, value),
        Body::Intensity(time) => set_in_time(time, first - 53, value),
        Body::Nankai { serial, page, total } => match first {
            53 => *serial = byte(value),
            201 => *page = byte(value),
            _ => *total = byte(value),
        },
        Body::Tsunami { notifications, warning } => match first {
            53..=79 => notifications[(first - 53) / 9] = short(value),
            _ => *warning = byte(value),
        },
        Body::Volcano { ambiguity, time, warning, volcano } => match first {
            50 => *ambiguity = byte(value),
            53..=68 => set_in_time(time, first - 53, value),
            69 => *warning = byte(value),
            _ => *volcano = short(value),
        },
        Body::AshFall { time, warning, volcano } => match first {
            53..=68 => set_in_time(time, first - 53, value),
            69 => *warning = byte(value),
            _ => *volcano = short(value),
        },
    }
}

fn set_in_hypocenter(hypocenter: &mut Hypocenter, first: usize, value: u64) {
    match first {
        53..=79 => hypocenter.notifications[(first - 53) / 9] = short(value),
        80..=95 => set_in_time(&mut hypocenter.time, first - 80, value),
        96 => hypocenter.depth = short(value),
        105 => hypocenter.magnitude = byte(value),
        112 => hypocenter.epicenter = short(value),
        122 => hypocenter.latitude.side = byte(value),
        123 => hypocenter.latitude.degrees = byte(value),
        130 => hypocenter.latitude.minutes = byte(value),
        136 => hypocenter.latitude.seconds = byte(value),
        142 => hypocenter.longitude.side = byte(value),
        143 => hypocenter.longitude.degrees = byte(value),
        151 => hypocenter.longitude.minutes = byte(value),
        _ => hypocenter.longitude.seconds = byte(value),
    }
}

fn set_in_time(time: &mut Time, offset: usize, value: u64) {
    match offset {
        0 => time.day = byte(value),
        5 => time.hour = byte(value),
        _ => time.minute = byte(value),
    }
}

fn byte(value: u64) -> u8 {
    value.min(u8::MAX.into()) as u8
}

fn short(value: u64) -> u16 {
    value.min(u16::MAX.into()) as u16
}
