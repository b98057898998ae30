//! Category 11: values checked by hand, read from frames and written from records.
//! The sample has one area, at bit 53; two more would stand at 97 and 141.

use crate::common::{read_changed, reading, told, write_changed, writing};
use reference::generate::set_number;
use reference::record::Category::Flood;
use reference::record::{Record, Slot};

const READ: (u8, u8) = (0, 0);

/// The ends of table 4.1.2-45 by its range, and a region that the table names.
const LOWEST: u64 = 10_175_000_100;
const HIGHEST: u64 = 899_999_999_999;
const KINU: u64 = 830_303_020_300;

/// A second and a third area, as they stand in a frame.
const SECOND: [(usize, usize, u64); 2] = [(97, 4, 15), (101, 40, HIGHEST)];
const THIRD: [(usize, usize, u64); 2] = [(141, 4, 1), (145, 40, LOWEST)];

fn area(strength: u8, place: u64) -> Slot {
    Slot { strength, place, ..Slot::default() }
}

#[test]
fn a_region_has_40_bits() {
    let three = [SECOND, THIRD].concat();
    let record = read_changed(Flood, &three).expect("it is read");
    assert_eq!(record.slots[..3], [area(2, KINU), area(15, HIGHEST), area(1, LOWEST)]);
    assert_eq!(record.slots[3..], [Slot::default(); 13]);
    // A region and what 32 bits would keep of it.
    let low_bits = KINU % (1 << 32);
    assert_eq!(told(read_changed(Flood, &[(57, 40, low_bits)])), (8, 57, low_bits));
}

#[test]
fn every_bit_of_a_region_is_read() {
    for bit in 0..40 {
        let region = KINU ^ 1 << bit;
        let answer = read_changed(Flood, &[(57, 40, region)]);
        if (LOWEST..=HIGHEST).contains(&region) {
            assert_eq!(answer.expect("it is read").slots[0].place, region);
        } else {
            assert_eq!(told(answer), (8, 57, region));
        }
    }
}

#[test]
fn levels_and_regions() {
    let three = [SECOND, THIRD].concat();
    let with = |value| told(read_changed(Flood, &[&three[..], &[value]].concat()));
    for first in [53, 97, 141] {
        for level in 0..16 {
            let expected = if level == 0 { (8, first as u8, 0) } else { (0, 0, 0) };
            assert_eq!(with((first, 4, level)), expected);
        }
        for region in [LOWEST, LOWEST + 1, KINU, HIGHEST - 1, HIGHEST] {
            assert_eq!(with((first + 4, 40, region)), (0, 0, 0));
        }
        for region in [0, 1, u32::MAX.into(), 1 << 32, LOWEST - 1, HIGHEST + 1, (1 << 40) - 1] {
            assert_eq!(with((first + 4, 40, region)), (8, first as u8 + 4, region));
        }
    }
}

#[test]
fn an_area_too_wide_is_not_its_low_bits() {
    let of = |slot: Slot| told(write_changed(Flood, |record| record.slots[0] = slot));
    assert_eq!(of(area(16 + 2, KINU)), (8, 53, 18));
    assert_eq!(of(area(255, KINU)), (8, 53, 255));
    for bit in 40..64 {
        assert_eq!(of(area(2, KINU + (1 << bit))), (8, 57, KINU + (1 << bit)));
    }
    assert_eq!(of(area(2, u64::MAX)), (8, 57, u64::MAX));
    // An area whose low bits are all zero is not an empty one.
    let low_bits_are_zero = area(16, 1 << 40);
    assert_eq!(writing(Flood, |record| record.slots[1] = low_bits_are_zero), (8, 97));
    assert_eq!(writing(Flood, |record| record.slots[2] = low_bits_are_zero), (10, 141));
}

#[test]
fn a_first_area_of_zeros_lacks_its_level() {
    assert_eq!(told(read_changed(Flood, &[(53, 44, 0)])), (8, 53, 0));
    assert_eq!(reading(Flood, &[&[(53, 44, 0)], &SECOND[..]].concat()), (8, 53));
    assert_eq!(writing(Flood, |record| record.slots[0] = Slot::default()), (8, 53));
}

#[test]
fn a_half_filled_area_is_refused_at_its_first_bad_field() {
    // A level alone and a region alone, in each area; those in front are right.
    let fronts = [vec![], SECOND.to_vec()];
    for (front, first) in fronts.into_iter().zip([97, 141]) {
        let with = |value| told(read_changed(Flood, &[&front[..], &[value]].concat()));
        assert_eq!(with((first, 4, 1)), (8, first as u8 + 4, 0));
        assert_eq!(with((first + 4, 40, KINU)), (8, first as u8, 0));
        assert_eq!(with((first + 4, 40, 1)), (8, first as u8, 0));
        assert_eq!(with((first, 44, 0)), (0, 0, 0));
    }
    assert_eq!(writing(Flood, |record| record.slots[1] = area(1, 0)), (8, 101));
    assert_eq!(writing(Flood, |record| record.slots[1] = area(0, KINU)), (8, 97));
}

#[test]
fn areas_with_gaps() {
    assert_eq!(reading(Flood, &SECOND), READ);
    assert_eq!(reading(Flood, &THIRD), (10, 141));
    assert_eq!(reading(Flood, &[SECOND, THIRD].concat()), READ);
    // The gap comes before the fields of its area, but behind an area in front.
    assert_eq!(told(read_changed(Flood, &[(141, 4, 1)])), (10, 141, 0));
    assert_eq!(told(read_changed(Flood, &[(145, 40, 1)])), (10, 141, 0));
    assert_eq!(reading(Flood, &[(57, 40, 1), (141, 4, 1)]), (8, 57));
    assert_eq!(writing(Flood, |record| record.slots[2] = area(1, KINU)), (10, 141));
    // The last bit in front of Spare2 is that of the third region.
    assert_eq!(reading(Flood, &[(184, 1, 1)]), (10, 141));
    assert_eq!(reading(Flood, &[(185, 1, 1)]), READ);
}

/// From the back to the front, each fault is told before those behind it.
#[test]
fn the_lowest_bit_decides() {
    let faults = [
        (145, 40, HIGHEST + 1, (10, 141, 0)),
        (101, 40, 1 << 32, (8, 97, 0)),
        (97, 4, 3, (8, 101, 1 << 32)),
        (57, 40, (1 << 40) - 1, (8, 57, (1 << 40) - 1)),
        (53, 4, 0, (8, 53, 0)),
        (41, 2, 3, (8, 41, 3)),
        (30, 5, 31, (8, 30, 31)),
        (14, 3, 1, (8, 14, 1)),
    ];
    let mut values = Vec::new();
    for (first, width, value, expected) in faults {
        values.push((first, width, value));
        assert_eq!(told(read_changed(Flood, &values)), expected);
        let put = |record: &mut Record| {
            values.iter().for_each(|&(first, _, value)| set_number(record, first, value));
        };
        assert_eq!(told(write_changed(Flood, put)), expected);
    }
}

#[test]
fn what_only_writing_can_refuse() {
    type Fault = (fn(&mut Record), (u8, u8));
    let faults: [Fault; 6] = [
        (|record| record.reserved = 64, (8, 220)),
        (|record| record.spares[1] = 1 << 29, (8, 185)),
        (|record| record.slots[0].place += 1 << 40, (8, 57)),
        (|record| record.slots[0].strength += 16, (8, 53)),
        (|record| record.spares[0] = 1024, (8, 43)),
        (|record| record.slots[0].hour = 1, (11, 0)),
    ];
    for count in 1..=faults.len() {
        let put = |record: &mut Record| faults[..count].iter().for_each(|(put, _)| put(record));
        assert_eq!(writing(Flood, put), faults[count - 1].1);
    }
}
