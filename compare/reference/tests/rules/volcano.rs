//! Category 8: values checked by hand, read from frames and written from records.
//! The sample has three places, at bits 88, 111 and 134; two more would stand at
//! 157 and 180.

use crate::common::{read_changed, reading, told, write_changed, writing};
use reference::generate::set_number;
use reference::record::Category::Volcano;
use reference::record::{Body, Record, Slot, Time};

const READ: (u8, u8) = (0, 0);

/// What a frame and a record can both have for day, hour and minute.
const NORMAL: (u64, u64, u64) = (5, 6, 7);
const UNKNOWN: (u64, u64, u64) = (0, 31, 63);

fn put_time(record: &mut Record, (day, hour, minute): (u64, u64, u64)) {
    for (first, value) in [(53, day), (58, hour), (63, minute)] {
        set_number(record, first, value);
    }
}

/// What reading and writing say of a time. They must say the same.
fn time_told(time: (u64, u64, u64)) -> (u8, u8, u64) {
    let (day, hour, minute) = time;
    let bits = [(53, 5, day), (58, 5, hour), (63, 6, minute)];
    let read = told(read_changed(Volcano, &bits));
    assert_eq!(told(write_changed(Volcano, |record| put_time(record, time))), read, "{time:?}");
    read
}

#[test]
fn all_codes_of_a_time_or_none() {
    for time in [NORMAL, UNKNOWN, (1, 0, 0), (31, 23, 59)] {
        assert_eq!(time_told(time), (0, 0, 0), "{time:?}");
    }
    // Two codes and one code, at each place.
    assert_eq!(time_told((0, 31, 7)), (8, 53, 0));
    assert_eq!(time_told((5, 31, 63)), (8, 58, 31));
    assert_eq!(time_told((0, 6, 63)), (8, 53, 0));
    assert_eq!(time_told((0, 6, 7)), (8, 53, 0));
    assert_eq!(time_told((5, 31, 7)), (8, 58, 31));
    assert_eq!(time_told((5, 6, 63)), (8, 63, 63));
    // Zeros are a time in no way.
    assert_eq!(time_told((0, 0, 0)), (8, 53, 0));
}

/// All that 16 bits hold. Day 0 is out of the normal range, so it is told whatever
/// stands behind it.
#[test]
fn the_first_field_out_of_its_normal_range_is_told() {
    for bits in 0..1 << 16 {
        let time = (bits >> 11, bits >> 6 & 31, bits & 63);
        let expected = match time {
            UNKNOWN => (0, 0, 0),
            (0, ..) => (8, 53, 0),
            (_, hour @ 24.., _) => (8, 58, hour),
            (_, _, minute @ 60..) => (8, 63, minute),
            _ => (0, 0, 0),
        };
        assert_eq!(time_told(time), expected, "{time:?}");
    }
}

#[test]
fn a_time_too_wide_is_not_its_low_bits() {
    let time = |time| told(write_changed(Volcano, |record| put_time(record, time)));
    assert_eq!(time(UNKNOWN), (0, 0, 0));
    assert_eq!(time((32, 31, 63)), (8, 53, 32));
    assert_eq!(time((0, 32 + 31, 63)), (8, 53, 0));
    assert_eq!(time((0, 31, 64 + 63)), (8, 53, 0));
    assert_eq!(time((5, 32 + 6, 7)), (8, 58, 38));
    assert_eq!(time((5, 6, 64 + 7)), (8, 63, 71));
    assert_eq!(time((32 + 5, 6, 7)), (8, 53, 37));
    assert_eq!(time((255, 255, 255)), (8, 53, 255));
}

#[test]
fn an_unknown_time_is_kept_as_it_is() {
    let unknown = [(53, 5, 0), (58, 5, 31), (63, 6, 63)];
    let record = read_changed(Volcano, &unknown).expect("it is read");
    let Body::Volcano { time, .. } = record.body else {
        panic!("it is of category 8");
    };
    assert_eq!(time, Time { day: 0, hour: 31, minute: 63 });
}

#[test]
fn the_ambiguity_is_not_tied_to_the_time() {
    for ambiguity in 0..8 {
        let put = |record: &mut Record| set_number(record, 50, ambiguity);
        assert_eq!(reading(Volcano, &[(50, 3, ambiguity)]), READ);
        assert_eq!(writing(Volcano, put), READ);
        let unknown = [(50, 3, ambiguity), (53, 5, 0), (58, 5, 31), (63, 6, 63)];
        assert_eq!(reading(Volcano, &unknown), READ);
        let unknown = |record: &mut Record| {
            put(record);
            put_time(record, UNKNOWN);
        };
        assert_eq!(writing(Volcano, unknown), READ);
        // One that says that the minute is not valid does not make it right.
        assert_eq!(reading(Volcano, &[(50, 3, ambiguity), (63, 6, 63)]), (8, 63));
        assert_eq!(reading(Volcano, &[(50, 3, ambiguity), (53, 5, 0)]), (8, 53));
    }
    assert_eq!(writing(Volcano, |record| set_number(record, 50, 8)), (8, 50));
}

#[test]
fn warning_code_and_volcano() {
    let warning = |code| reading(Volcano, &[(69, 7, code)]);
    assert_eq!([0, 1, 52, 127].map(warning), [(8, 69), READ, READ, READ]);
    assert_eq!(writing(Volcano, |record| set_number(record, 69, 128 + 1)), (8, 69));
    let volcano = |code| reading(Volcano, &[(76, 12, code)]);
    assert_eq!([0, 100, 4001, 4095].map(volcano), [(8, 76); 4]);
    assert_eq!([101, 503, 4000].map(volcano), [READ; 3]);
    assert_eq!(writing(Volcano, |record| set_number(record, 76, 4096 + 101)), (8, 76));
}

#[test]
fn places_begin_at_110000() {
    // Two more places, so that all are used. The same place may stand twice.
    let more = [(157, 23, 4_321_400), (180, 23, 4_321_400)];
    for first in [88, 111, 134, 157, 180] {
        let with =
            |place| told(read_changed(Volcano, &[&more[..], &[(first, 23, place)]].concat()));
        assert_eq!([110_000, 110_001, 4_799_998, 4_799_999].map(with), [(0, 0, 0); 4]);
        for place in [1, 100_000, 109_999, 4_800_000, 8_388_607] {
            assert_eq!(with(place), (8, first as u8, place));
        }
    }
}

#[test]
fn a_place_too_wide_is_not_its_low_bits() {
    for bit in [23, 31, 32, 39, 40, 63] {
        assert_eq!(writing(Volcano, |record| record.slots[0].place += 1 << bit), (8, 88));
        // A place whose low bits are all zero is not an empty one.
        assert_eq!(writing(Volcano, |record| record.slots[3].place = 1 << bit), (8, 157));
        assert_eq!(writing(Volcano, |record| record.slots[4].place = 1 << bit), (10, 180));
    }
}

#[test]
fn a_first_place_of_zero_is_out_of_range_and_no_gap() {
    assert_eq!(told(read_changed(Volcano, &[(88, 23, 0)])), (8, 88, 0));
    assert_eq!(reading(Volcano, &[(88, 23, 0), (111, 23, 0), (134, 23, 0)]), (8, 88));
    assert_eq!(writing(Volcano, |record| record.slots[0] = Slot::default()), (8, 88));
    assert_eq!(writing(Volcano, |record| record.slots = [Slot::default(); 16]), (8, 88));
}

#[test]
fn places_with_gaps() {
    assert_eq!(reading(Volcano, &[(134, 23, 0)]), READ);
    assert_eq!(reading(Volcano, &[(111, 23, 0), (134, 23, 0)]), READ);
    assert_eq!(reading(Volcano, &[(111, 23, 0)]), (10, 134));
    assert_eq!(reading(Volcano, &[(157, 23, 110_000), (180, 23, 110_000)]), READ);
    assert_eq!(reading(Volcano, &[(180, 23, 110_000)]), (10, 180));
    assert_eq!(reading(Volcano, &[(134, 23, 0), (157, 23, 110_000)]), (10, 157));
    // The gap comes before the place behind it, but behind one in front.
    assert_eq!(told(read_changed(Volcano, &[(111, 23, 0), (134, 23, 1)])), (10, 134, 0));
    assert_eq!(reading(Volcano, &[(88, 23, 1), (111, 23, 0)]), (8, 88));
    assert_eq!(writing(Volcano, |record| record.slots[1] = Slot::default()), (10, 134));
    // The last bit in front of Spare2 is that of the fifth place.
    assert_eq!(reading(Volcano, &[(202, 1, 1)]), (10, 180));
    assert_eq!(reading(Volcano, &[(203, 1, 1)]), READ);
}

/// From the back to the front, each fault is told before those behind it.
#[test]
fn the_lowest_bit_decides() {
    let faults = [
        (134, 23, 1, (8, 134, 1)),
        (111, 23, 0, (10, 134, 0)),
        (88, 23, 4_800_000, (8, 88, 4_800_000)),
        (76, 12, 100, (8, 76, 100)),
        (69, 7, 0, (8, 69, 0)),
        (63, 6, 63, (8, 63, 63)),
        (58, 5, 30, (8, 58, 30)),
        (53, 5, 0, (8, 53, 0)),
        // Now all three have their codes, and what is behind them is told.
        (58, 5, 31, (8, 69, 0)),
        (41, 2, 3, (8, 41, 3)),
        (35, 6, 60, (8, 35, 60)),
        (14, 3, 1, (8, 14, 1)),
    ];
    let mut values = Vec::new();
    for (first, width, value, expected) in faults {
        values.push((first, width, value));
        assert_eq!(told(read_changed(Volcano, &values)), expected);
        let put = |record: &mut Record| {
            values.iter().for_each(|&(first, _, value)| set_number(record, first, value));
        };
        assert_eq!(told(write_changed(Volcano, put)), expected);
    }
}

#[test]
fn what_only_writing_can_refuse() {
    type Fault = (fn(&mut Record), (u8, u8));
    let faults: [Fault; 7] = [
        (|record| record.reserved = 64, (8, 220)),
        (|record| record.spares[1] = 2048, (8, 203)),
        (|record| record.slots[2].place += 1 << 40, (8, 134)),
        (|record| put_time(record, (32, 31, 63)), (8, 53)),
        (|record| set_number(record, 50, 8), (8, 50)),
        (|record| record.spares[0] = 128, (8, 43)),
        (|record| record.slots[0].strength = 1, (11, 0)),
    ];
    for count in 1..=faults.len() {
        let put = |record: &mut Record| faults[..count].iter().for_each(|(put, _)| put(record));
        assert_eq!(writing(Volcano, put), faults[count - 1].1);
    }
}
