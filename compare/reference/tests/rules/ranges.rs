//! Every value of every field, against ranges written out here once more. What is
//! refused is told with its value.

use crate::common::{base_frame, changed, told};
use reference::bits::{get, Frame};
use reference::check::out_of_range;
use reference::fields::{fields, slot_layout, Field};
use reference::read::read;
use reference::record::Category::{
    self, AshFall, Flood, Hypocenter, Intensity, Nankai, Tsunami, Volcano,
};

type Row = (usize, usize, fn(u64) -> bool);

/// A field with more bits has too many values to try them all.
const MOST_BITS: usize = 15;

/// Number, place and value of an answer that refuses nothing.
const READ: (u8, u8, u64) = (0, 0, 0);

const RC: Row = (14, 3, |value| value == 2 || value == 7);
const RC_OF_TSUNAMI: Row = (14, 3, |value| value == 1 || value == 3 || value == 7);
const RC_OR_REGULAR: Row = (14, 3, |value| value == 2 || value == 3 || value == 7);

const ISSUE_TIME: [Row; 4] = [
    (21, 4, |value| (1..13).contains(&value)),
    (25, 5, |value| value != 0),
    (30, 5, |value| value < 24),
    (35, 6, |value| value < 60),
];

const SPARE1: Row = (43, 10, |_| true);
const SHORT_SPARE1: Row = (43, 7, |_| true);

const HYPOCENTER: [Row; 19] = [
    (41, 2, |value| value == 0 || value == 2),
    (53, 9, |value| value == 0 || (101..501).contains(&value)),
    (62, 9, |value| value == 0 || (101..501).contains(&value)),
    (71, 9, |value| value == 0 || (101..501).contains(&value)),
    (80, 5, |value| value != 0),
    (85, 5, |value| value < 24),
    (90, 6, |value| value < 60),
    (96, 9, |value| value < 502 || value == 511),
    (105, 7, |value| (1..102).contains(&value) || value > 125),
    (112, 10, |value| (11..1001).contains(&value)),
    (122, 1, |_| true),
    (123, 7, |value| value < 90),
    (130, 6, |value| value < 60),
    (136, 6, |value| value < 60),
    (142, 1, |_| true),
    (143, 8, |value| value < 180),
    (151, 6, |value| value < 60),
    (157, 6, |value| value < 60),
    (163, 51, |_| true),
];

const INTENSITY: [Row; 5] = [
    (41, 2, |value| value == 0 || value == 2),
    (53, 5, |value| value != 0),
    (58, 5, |value| value < 24),
    (63, 6, |value| value < 60),
    (213, 1, |_| true),
];

const NANKAI: [Row; 5] = [
    (41, 2, |value| value == 0 || value == 2),
    (53, 4, |value| value != 0),
    // The base frame is page 1 of 27.
    (201, 6, |value| value != 0),
    (207, 6, |value| value != 0),
    (213, 1, |_| true),
];

const TSUNAMI: [Row; 5] = [
    (41, 2, |value| value == 0 || value == 2),
    (53, 9, |value| value == 0 || (101..501).contains(&value)),
    (62, 9, |value| value == 0 || (101..501).contains(&value)),
    (71, 9, |value| value == 0 || (101..501).contains(&value)),
    (80, 4, |value| value != 0),
];

/// A single code beside a time is a value like any other.
const VOLCANO: [Row; 8] = [
    (41, 2, |value| value < 3),
    (50, 3, |_| true),
    (53, 5, |value| value != 0),
    (58, 5, |value| value < 24),
    (63, 6, |value| value < 60),
    (69, 7, |value| value != 0),
    (76, 12, |value| (101..4001).contains(&value)),
    (203, 11, |_| true),
];

const ASH_FALL: [Row; 7] = [
    (41, 2, |value| value < 3),
    (53, 5, |value| value != 0),
    (58, 5, |value| value < 24),
    (63, 6, |value| value < 60),
    (69, 2, |value| value == 1 || value == 2),
    (71, 12, |value| (101..4001).contains(&value)),
    (199, 15, |_| true),
];

const FLOOD: [Row; 2] = [(41, 2, |value| value < 3), (185, 29, |_| true)];

fn rows(category: Category) -> Vec<Row> {
    let (rc, spare1, own): (Row, Row, &[Row]) = match category {
        Hypocenter => (RC, SPARE1, &HYPOCENTER),
        Intensity => (RC, SPARE1, &INTENSITY),
        Nankai => (RC, SPARE1, &NANKAI),
        Tsunami => (RC_OF_TSUNAMI, SPARE1, &TSUNAMI),
        Volcano => (RC_OR_REGULAR, SHORT_SPARE1, &VOLCANO),
        AshFall => (RC, SPARE1, &ASH_FALL),
        Flood => (RC_OR_REGULAR, SPARE1, &FLOOD),
    };
    [&[rc, spare1], &ISSUE_TIME[..], own].concat()
}

#[test]
fn every_value_of_every_field_outside_the_slots() {
    for category in Category::ALL {
        let base = base_frame(category);
        for (first, width, allowed) in rows(category) {
            for value in 0..1 << width.min(MOST_BITS) {
                let frame = changed(&base, &[(first, width, value)]);
                let mut expected = if allowed(value) { READ } else { (8, first as u8, value) };
                if (category, first) == (Nankai, 201) && value > 27 {
                    expected = (8, 207, 27);
                }
                assert_eq!(told(read(&frame)), expected, "{category:?} {first} {value}");
            }
        }
    }
}

#[test]
fn the_table_has_these_rows_and_no_others() {
    for category in Category::ALL {
        let mut here: Vec<_> = rows(category).iter().map(|row| (row.0, row.1)).collect();
        here.sort();
        let there: Vec<_> = fields(category).iter().map(|row| (row.first, row.width)).collect();
        assert_eq!(here, there);
    }
}

#[test]
fn every_value_of_every_intensity_slot() {
    let full: Vec<_> = (0..16).map(|slot| (69 + 9 * slot, 9, 1 << 6 | 1)).collect();
    let base = changed(&base_frame(Intensity), &full);
    for slot in 0..16 {
        let first = 69 + 9 * slot;
        for value in 0..512 {
            let frame = changed(&base, &[(first, 9, value)]);
            let expected = match (value >> 6, value & 63) {
                (0, 0) if slot == 15 => READ,
                (0, 0) if slot > 0 => (10, first as u8 + 9, 0),
                (0, _) => (8, first as u8, 0),
                (_, 1..=47) => READ,
                (_, prefecture) => (8, first as u8 + 3, prefecture),
            };
            assert_eq!(told(read(&frame)), expected, "slot {slot} value {value}");
        }
    }
}

/// A tsunami frame with five areas: this day, 1:02, height code 3, region 100.
fn five_areas() -> Frame {
    let full: Vec<_> =
        (0..5).map(|area| (84 + 26 * area, 26, 1 << 20 | 2 << 14 | 3 << 10 | 100)).collect();
    changed(&base_frame(Tsunami), &full)
}

#[test]
fn every_day_hour_and_minute_of_every_area() {
    let base = five_areas();
    for area in 0..5 {
        let first = 84 + 26 * area;
        for value in 0..1 << 12 {
            let frame = changed(&base, &[(first, 12, value)]);
            let expected = match (value >> 6 & 31, value & 63) {
                (31, 63) => READ,
                (hour @ 24.., _) => (8, first as u8 + 1, hour),
                (_, minute @ 60..) => (8, first as u8 + 6, minute),
                _ => READ,
            };
            assert_eq!(told(read(&frame)), expected, "area {area} value {value}");
        }
    }
}

/// The rule of a group does not know how many fields it has or where they stand: a
/// time whose day, hour and minute are unknown together, with each of its faults.
#[test]
fn a_group_of_three_has_all_codes_or_none() {
    let row = |first, width, allowed, code| Field { first, width, allowed, group_code: Some(code) };
    let time = [row(0, 5, &[(1, 31)], 0), row(5, 5, &[(0, 23)], 31), row(10, 6, &[(0, 59)], 63)];
    let faults = |values: [u64; 3]| {
        let value_of = |field: &Field| values[field.first / 5];
        let found = out_of_range(&time, &value_of);
        found.iter().map(|refusal| (refusal.place, refusal.value)).collect::<Vec<_>>()
    };
    assert_eq!(faults([0, 31, 63]), []);
    assert_eq!(faults([1, 0, 0]), []);
    assert_eq!(faults([0, 31, 59]), [(0, 0), (5, 31)]);
    assert_eq!(faults([0, 0, 0]), [(0, 0)]);
    assert_eq!(faults([1, 31, 63]), [(5, 31), (10, 63)]);
    assert_eq!(faults([31, 23, 63]), [(10, 63)]);
    assert_eq!(faults([32, 31, 63]), [(0, 32), (5, 31), (10, 63)]);
}

#[test]
fn every_height_and_region_of_every_area() {
    let base = five_areas();
    for area in 0..5 {
        let first = 84 + 26 * area;
        for value in 0..1 << 14 {
            let frame = changed(&base, &[(first + 12, 14, value)]);
            let expected = match (value >> 10, value & 1023) {
                (0, _) => (8, first as u8 + 12, 0),
                (_, 100..=1000) => READ,
                (_, region) => (8, first as u8 + 16, region),
            };
            assert_eq!(told(read(&frame)), expected, "area {area} value {value}");
        }
    }
}

#[test]
fn every_hour_and_strength_of_every_ash_fall_slot() {
    let base = base_frame(AshFall);
    for slot in 0..4 {
        let first = 83 + 29 * slot;
        for value in 0..64 {
            let frame = changed(&base, &[(first, 6, value)]);
            let expected = match (value >> 3, value & 7) {
                (hour @ (0 | 7), _) => (8, first as u8, hour),
                (_, 0) => (8, first as u8 + 3, 0),
                _ => READ,
            };
            assert_eq!(told(read(&frame)), expected, "slot {slot} value {value}");
        }
        for (place, right) in [(0, false), (109_999, false), (110_000, true), (4_800_000, false)] {
            let frame = changed(&base, &[(first + 6, 23, place)]);
            let expected = if right { READ } else { (8, first as u8 + 6, place) };
            assert_eq!(told(read(&frame)), expected, "slot {slot} place {place}");
        }
    }
}

/// Fields, slots, text and spares fill bits 14 to 213 without a hole and
/// without overlap, Dc apart.
#[test]
fn the_tables_cover_the_frame() {
    for category in Category::ALL {
        let layout = slot_layout(category);
        let mut stretches: Vec<_> =
            fields(category).iter().map(|field| (field.first, field.width)).collect();
        stretches.extend((0..layout.count).map(|slot| (layout.slot_first(slot), layout.width)));
        stretches.push((17, 4));
        if category == Nankai {
            stretches.push((57, 144));
        }
        stretches.sort();
        let end = stretches.iter().fold(14, |next, &(first, width)| {
            assert_eq!(first, next, "{category:?}");
            first + width
        });
        assert_eq!(end, 214);
        assert_eq!(get(&base_frame(category), 214, 6), 1);
    }
}
