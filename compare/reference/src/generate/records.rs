//! Valid records. The ranges are written out here a second time, from the
//! papers and not from the field tables, so that a slip in either shows.

use super::allowed_value;
use crate::random::Random;
use crate::record::{Angle, Body, Category, Hypocenter, Part, Record, Slot, Time, PREAMBLES};

/// A record that must be written, with a random number of used slots and
/// whatever its spares hold.
pub fn valid_record(random: &mut Random, category: Category) -> Record {
    Record {
        preamble: random.pick(&PREAMBLES),
        reserved: byte(random, &[(0, 63)]),
        rc: valid_rc(random, category),
        month: byte(random, &[(1, 12)]),
        day: byte(random, &[(1, 31)]),
        hour: byte(random, &[(0, 23)]),
        minute: byte(random, &[(0, 59)]),
        it: valid_it(random, category),
        spares: valid_spares(random, category),
        body: valid_body(random, category),
        slots: valid_slots(random, category),
        text: valid_text(random, category),
    }
}

/// A record that must be written, with all slots of its category used.
pub fn full_record(random: &mut Random, category: Category) -> Record {
    let mut record = valid_record(random, category);
    record.slots[..slot_count(category)].fill_with(|| valid_slot(random, category));
    record
}

/// One used slot of a category, in range.
pub fn valid_slot(random: &mut Random, category: Category) -> Slot {
    match category {
        Category::Tsunami => valid_area(random),
        Category::Volcano => Slot { place: local_government(random), ..Slot::default() },
        Category::AshFall => Slot {
            hour: byte(random, &[(1, 6)]),
            strength: byte(random, &[(1, 7)]),
            place: local_government(random),
            ..Slot::default()
        },
        Category::Flood => Slot {
            strength: byte(random, &[(1, 15)]),
            place: allowed_value(random, &[(10_175_000_100, 899_999_999_999)]),
            ..Slot::default()
        },
        _ => Slot {
            strength: byte(random, &[(1, 7)]),
            place: allowed_value(random, &[(1, 47)]),
            ..Slot::default()
        },
    }
}

/// How many slots a category has.
pub fn slot_count(category: Category) -> usize {
    match category {
        Category::Hypocenter | Category::Nankai => 0,
        Category::Intensity => 16,
        Category::Tsunami | Category::Volcano => 5,
        Category::AshFall => 4,
        Category::Flood => 3,
    }
}

/// The parts that the slots of a category do not have.
pub fn lacking_parts(category: Category) -> &'static [Part] {
    match category {
        Category::Hypocenter | Category::Nankai | Category::Tsunami => &[],
        Category::Intensity | Category::Flood => &[Part::Day, Part::Hour, Part::Minute],
        Category::Volcano => &[Part::Day, Part::Hour, Part::Minute, Part::Strength],
        Category::AshFall => &[Part::Day, Part::Minute],
    }
}

/// Spare1 and Spare2, of which category 5 has the first alone.
pub fn valid_spares(random: &mut Random, category: Category) -> [u64; 2] {
    let widths = match category {
        Category::Hypocenter => [10, 51],
        Category::Intensity | Category::Nankai => [10, 1],
        Category::Tsunami => [10, 0],
        Category::Volcano => [7, 11],
        Category::AshFall => [10, 15],
        Category::Flood => [10, 29],
    };
    widths.map(|width| allowed_value(random, &[(0, (1 << width) - 1)]))
}

/// An area of category 5, which the wave may have reached already.
fn valid_area(random: &mut Random) -> Slot {
    let arrival = (byte(random, &[(0, 23)]), byte(random, &[(0, 59)]));
    let (hour, minute) = if random.one_in(4) { (31, 63) } else { arrival };
    Slot {
        day: random.pick(&[0, 1]),
        hour,
        minute,
        strength: byte(random, &[(1, 15)]),
        place: allowed_value(random, &[(100, 1000)]),
    }
}

fn local_government(random: &mut Random) -> u64 {
    allowed_value(random, &[(110_000, 4_799_999)])
}

fn valid_rc(random: &mut Random, category: Category) -> u8 {
    match category {
        Category::Tsunami => random.pick(&[1, 3, 7]),
        Category::Volcano | Category::Flood => random.pick(&[2, 3, 7]),
        _ => random.pick(&[2, 7]),
    }
}

fn valid_it(random: &mut Random, category: Category) -> u8 {
    match category {
        Category::Volcano | Category::AshFall | Category::Flood => random.pick(&[0, 1, 2]),
        _ => random.pick(&[0, 2]),
    }
}

fn valid_body(random: &mut Random, category: Category) -> Body {
    match category {
        Category::Hypocenter => Body::Hypocenter(valid_hypocenter(random)),
        Category::Intensity => Body::Intensity(valid_time(random)),
        Category::Nankai => {
            let page = byte(random, &[(1, 63)]);
            let total = byte(random, &[(page.into(), 63)]);
            Body::Nankai { serial: byte(random, &[(1, 15)]), page, total }
        }
        Category::Tsunami => Body::Tsunami {
            notifications: valid_notifications(random),
            warning: byte(random, &[(1, 15)]),
        },
        Category::Volcano => Body::Volcano {
            ambiguity: byte(random, &[(0, 7)]),
            time: valid_activity(random),
            warning: byte(random, &[(1, 127)]),
            volcano: short(random, &[(101, 4000)]),
        },
        Category::AshFall => Body::AshFall {
            time: valid_time(random),
            warning: random.pick(&[1, 2]),
            volcano: short(random, &[(101, 4000)]),
        },
        Category::Flood => Body::Flood,
    }
}

fn valid_hypocenter(random: &mut Random) -> Hypocenter {
    Hypocenter {
        notifications: valid_notifications(random),
        time: valid_time(random),
        depth: short(random, &[(0, 501), (511, 511)]),
        magnitude: byte(random, &[(1, 101), (126, 126), (127, 127)]),
        epicenter: short(random, &[(11, 1000)]),
        latitude: valid_angle(random, 89),
        longitude: valid_angle(random, 179),
    }
}

fn valid_notifications(random: &mut Random) -> [u16; 3] {
    [0; 3].map(|_: u16| short(random, &[(0, 0), (101, 500)]))
}

fn valid_angle(random: &mut Random, most_degrees: u64) -> Angle {
    Angle {
        side: random.pick(&[0, 1]),
        degrees: byte(random, &[(0, most_degrees)]),
        minutes: byte(random, &[(0, 59)]),
        seconds: byte(random, &[(0, 59)]),
    }
}

fn valid_time(random: &mut Random) -> Time {
    Time {
        day: byte(random, &[(1, 31)]),
        hour: byte(random, &[(0, 23)]),
        minute: byte(random, &[(0, 59)]),
    }
}

/// The time of volcanic activity, which may be unknown.
fn valid_activity(random: &mut Random) -> Time {
    if random.one_in(4) {
        Time { day: 0, hour: 31, minute: 63 }
    } else {
        valid_time(random)
    }
}

fn valid_slots(random: &mut Random, category: Category) -> [Slot; 16] {
    let mut slots = [Slot::default(); 16];
    let count = slot_count(category);
    let used = if count == 0 { 0 } else { 1 + random.below(count) };
    for slot in slots.iter_mut().take(used) {
        *slot = valid_slot(random, category);
    }
    slots
}

/// Any bytes are text, and a page of zeros is a page.
fn valid_text(random: &mut Random, category: Category) -> [u8; 18] {
    if category != Category::Nankai || random.one_in(8) {
        return [0; 18];
    }
    [0; 18].map(|_: u8| random.byte())
}

fn byte(random: &mut Random, allowed: &[(u64, u64)]) -> u8 {
    allowed_value(random, allowed) as u8
}

fn short(random: &mut Random, allowed: &[(u64, u64)]) -> u16 {
    allowed_value(random, allowed) as u16
}
