//! Category 5: values checked by hand, read from frames and written from
//! records. The sample has three areas, at bits 84, 110 and 136; two more would
//! stand at 162 and 188.

use crate::common::{reading, writing};
use reference::record::Category::Tsunami;
use reference::record::{Body, Record, Slot};

const READ: (u8, u8) = (0, 0);

/// Hours and minutes, with what is said of each two in the first area.
const ARRIVALS: [((u8, u8), (u8, u8)); 12] = [
    ((0, 0), READ),
    ((23, 59), READ),
    ((31, 63), READ),
    ((31, 59), (8, 85)),
    ((31, 60), (8, 85)),
    ((31, 0), (8, 85)),
    ((24, 63), (8, 85)),
    ((30, 63), (8, 85)),
    ((24, 59), (8, 85)),
    ((5, 63), (8, 90)),
    ((23, 62), (8, 90)),
    ((0, 60), (8, 90)),
];

#[test]
fn both_codes_of_an_arrival_or_none() {
    for ((hour, minute), expected) in ARRIVALS {
        for day in [0, 1] {
            let bits = [(84, 1, day), (85, 5, hour.into()), (90, 6, minute.into())];
            assert_eq!(reading(Tsunami, &bits), expected, "{hour} {minute}");
            let put = |record: &mut Record| {
                record.slots[0].day = day as u8;
                put_arrival(record, 0, (hour, minute));
            };
            assert_eq!(writing(Tsunami, put), expected, "{hour} {minute}");
        }
    }
}

fn put_arrival(record: &mut Record, area: usize, (hour, minute): (u8, u8)) {
    record.slots[area].hour = hour;
    record.slots[area].minute = minute;
}

#[test]
fn an_arrival_is_judged_in_its_own_area() {
    // The first area has both codes; the second has one of them.
    let arrived = [(85, 5, 31), (90, 6, 63)];
    assert_eq!(reading(Tsunami, &arrived), READ);
    assert_eq!(reading(Tsunami, &[&arrived[..], &[(116, 6, 63)]].concat()), (8, 116));
    assert_eq!(reading(Tsunami, &[&arrived[..], &[(111, 5, 31)]].concat()), (8, 111));
    // The hour of one area and the minute of the next are no arrival.
    assert_eq!(reading(Tsunami, &[(85, 5, 31), (116, 6, 63)]), (8, 85));
}

#[test]
fn an_arrival_too_wide_is_not_its_low_bits() {
    let arrival = |hour, minute| writing(Tsunami, |record| put_arrival(record, 2, (hour, minute)));
    assert_eq!(arrival(31, 63), READ);
    assert_eq!(arrival(32 + 31, 63), (8, 137));
    assert_eq!(arrival(31, 64 + 63), (8, 137));
    assert_eq!(arrival(5, 64 + 5), (8, 142));
    assert_eq!(arrival(32 + 5, 5), (8, 137));
    assert_eq!(arrival(255, 255), (8, 137));
}

#[test]
fn notifications_and_warning_code() {
    for first in [53, 62, 71] {
        let notification = |value| reading(Tsunami, &[(first, 9, value)]);
        let refused = (8, first as u8);
        assert_eq!([0, 101, 500].map(notification), [READ; 3]);
        assert_eq!([1, 100, 501, 511].map(notification), [refused; 4]);
    }
    assert_eq!(reading(Tsunami, &[(53, 9, 0), (62, 9, 0), (71, 9, 101)]), READ);
    let warning = |code| reading(Tsunami, &[(80, 4, code)]);
    assert_eq!([0, 1, 6, 15].map(warning), [(8, 80), READ, READ, READ]);
}

#[test]
fn the_body_too_wide_is_out_of_range() {
    let body = |notifications, warning| {
        writing(Tsunami, |record| record.body = Body::Tsunami { notifications, warning })
    };
    assert_eq!(body([101, 500, 0], 15), READ);
    assert_eq!(body([101 + 512, 0, 0], 1), (8, 53));
    assert_eq!(body([0, 512, 0], 1), (8, 62));
    assert_eq!(body([0, 0, u16::MAX], 1), (8, 71));
    assert_eq!(body([0, 0, 0], 16 + 3), (8, 80));
}

#[test]
fn it_is_issue_or_cancellation() {
    let it = |value| reading(Tsunami, &[(41, 2, value)]);
    assert_eq!([0, 1, 2, 3].map(it), [READ, (8, 41), READ, (8, 41)]);
}

#[test]
fn heights_and_regions() {
    let height = |code| reading(Tsunami, &[(96, 4, code)]);
    assert_eq!([0, 1, 7, 14, 15].map(height), [(8, 96), READ, READ, READ, READ]);
    let region = |code| reading(Tsunami, &[(100, 10, code)]);
    assert_eq!([0, 99, 100, 1000, 1001].map(region), [(8, 100), (8, 100), READ, READ, (8, 100)]);
}

#[test]
fn parts_of_an_area_too_wide() {
    assert_eq!(writing(Tsunami, |record| record.slots[0].day = 1), READ);
    assert_eq!(writing(Tsunami, |record| record.slots[0].day = 2), (8, 84));
    assert_eq!(writing(Tsunami, |record| record.slots[0].strength += 16), (8, 96));
    assert_eq!(writing(Tsunami, |record| record.slots[0].place += 1 << 10), (8, 100));
    assert_eq!(writing(Tsunami, |record| record.slots[0].place += 1 << 32), (8, 100));
    let low_bits_are_zero = Slot { day: 2, hour: 32, minute: 64, strength: 16, place: 1 << 10 };
    assert_eq!(writing(Tsunami, |record| record.slots[3] = low_bits_are_zero), (8, 162));
    assert_eq!(writing(Tsunami, |record| record.slots[4] = low_bits_are_zero), (10, 188));
}

#[test]
fn a_first_area_of_zeros_lacks_its_height() {
    assert_eq!(reading(Tsunami, &[(84, 26, 0)]), (8, 96));
    assert_eq!(reading(Tsunami, &[(84, 26, 1 << 25)]), (8, 96));
    assert_eq!(reading(Tsunami, &[(84, 26, 0), (110, 26, 0), (136, 26, 0)]), (8, 96));
    assert_eq!(writing(Tsunami, |record| record.slots[0] = Slot::default()), (8, 96));
}

#[test]
fn an_area_of_which_any_bit_is_set_is_used() {
    // Nothing but the day, and each other part alone.
    let fourth = [(162, 1, 174), (163, 5, 174), (168, 6, 174), (174, 4, 178), (178, 10, 174)];
    for (first, width, place) in fourth {
        assert_eq!(reading(Tsunami, &[(first, width, 1)]), (8, place), "{first}");
        assert_eq!(reading(Tsunami, &[(first + 26, width, 1)]), (10, 188), "{first}");
    }
    assert_eq!(writing(Tsunami, |record| record.slots[3].day = 1), (8, 174));
    assert_eq!(writing(Tsunami, |record| record.slots[4].day = 1), (10, 188));
    // The last bit in front of the version is that of the fifth region.
    assert_eq!(reading(Tsunami, &[(213, 1, 1)]), (10, 188));
}

#[test]
fn a_gap_is_told_before_the_fields_of_its_area() {
    assert_eq!(reading(Tsunami, &[(110, 26, 0)]), (10, 136));
    assert_eq!(reading(Tsunami, &[(136, 26, 0)]), READ);
    assert_eq!(reading(Tsunami, &[(110, 26, 0), (136, 1, 1), (137, 5, 31)]), (10, 136));
    let clear = |area: usize| {
        move |record: &mut Record| {
            record.slots[area] = Slot::default();
            record.slots[2].day = 2;
        }
    };
    assert_eq!(writing(Tsunami, clear(1)), (10, 136));
    assert_eq!(writing(Tsunami, clear(4)), (8, 136));
}

#[test]
fn the_lowest_bit_decides() {
    // From the back to the front, each fault is told before those behind it.
    let faults = [
        (152, 10, 99, (8, 152)),
        (110, 26, 0, (10, 136)),
        (100, 10, 1001, (8, 100)),
        (96, 4, 0, (8, 96)),
        (90, 6, 63, (8, 90)),
        (85, 5, 24, (8, 85)),
        (80, 4, 0, (8, 80)),
        (71, 9, 100, (8, 71)),
        (53, 9, 501, (8, 53)),
        (41, 2, 1, (8, 41)),
        (14, 3, 2, (8, 14)),
    ];
    let mut values = Vec::new();
    for (first, width, value, expected) in faults {
        values.push((first, width, value));
        assert_eq!(reading(Tsunami, &values), expected);
    }
}

#[test]
fn writing_has_the_same_order() {
    type Fault = (fn(&mut Record), (u8, u8));
    let faults: [Fault; 9] = [
        (|record| record.reserved = 64, (8, 220)),
        (|record| record.slots[2].place = 99, (8, 152)),
        (|record| record.slots[1] = Slot::default(), (10, 136)),
        (|record| record.slots[0].strength = 0, (8, 96)),
        (|record| record.slots[0].minute = 63, (8, 90)),
        (|record| record.slots[0].hour = 30, (8, 85)),
        (|record| record.spares[0] = 1024, (8, 43)),
        (|record| record.rc = 2, (8, 14)),
        (|record| record.slots[5].day = 1, (11, 0)),
    ];
    for count in 1..=faults.len() {
        let put = |record: &mut Record| faults[..count].iter().for_each(|(put, _)| put(record));
        assert_eq!(writing(Tsunami, put), faults[count - 1].1);
    }
}
