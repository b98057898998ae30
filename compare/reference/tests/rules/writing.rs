//! Writing: values checked by hand, and the order of the refusals.

use crate::common::{base_record, outcome, writing, written};
use reference::record::Category::{
    self, AshFall, Flood, Hypocenter, Intensity, Nankai, Tsunami, Volcano,
};
use reference::record::{Body, Record, Slot};
use reference::write::write;

#[test]
fn a_buffer_of_any_other_length_is_refused_and_left_alone() {
    let record = Record::default();
    for length in (0..=40).filter(|&length| length != 32) {
        let mut buffer = vec![0xA5; length];
        assert_eq!(outcome(write(&record, &mut buffer)), (1, 0));
        assert!(buffer.iter().all(|&byte| byte == 0xA5));
    }
}

#[test]
fn preamble_then_category_then_unused_then_values() {
    let spoil = |record: &mut Record| {
        record.rc = 0;
        record.reserved = 64;
        record.text[17] = 1;
        record.slots[15].hour = 1;
    };
    for category in Category::ALL {
        let bad_preamble = |record: &mut Record| {
            spoil(record);
            record.body = Body::Nothing;
            record.preamble = 0x54;
        };
        assert_eq!(writing(category, bad_preamble), (3, 0));
        let no_category = |record: &mut Record| {
            spoil(record);
            record.body = Body::Nothing;
        };
        assert_eq!(writing(category, no_category), (7, 0));
        assert_eq!(writing(category, spoil), (11, 0));
        assert_eq!(writing(category, |record| record.rc = 0), (8, 14));
    }
    assert_eq!(outcome(write(&Record::default(), &mut [0; 32])), (3, 0));
}

#[test]
fn all_three_preambles_are_written_as_they_are() {
    for preamble in [0x53, 0x9A, 0xC6] {
        let record = Record { preamble, ..base_record(Intensity) };
        assert_eq!(written(&record)[0], preamble);
    }
}

#[test]
fn text_where_the_category_has_none() {
    for category in [Hypocenter, Intensity, Tsunami, Volcano, AshFall, Flood] {
        for number in 0..18 {
            assert_eq!(writing(category, |record| record.text[number] = 1), (11, 0));
        }
    }
}

type Put = fn(&mut Slot);

const DAY: Put = |slot| slot.day = 1;
const HOUR: Put = |slot| slot.hour = 1;
const MINUTE: Put = |slot| slot.minute = 1;
const STRENGTH: Put = |slot| slot.strength = 1;
const PLACE: Put = |slot| slot.place = 1;
const WIDE_PLACE: Put = |slot| slot.place = 1 << 32;

#[test]
fn something_in_a_slot_where_the_category_has_nothing() {
    // How many slots a category has, and what they lack.
    let rows: [(Category, usize, &[Put]); 7] = [
        (Hypocenter, 0, &[]),
        (Intensity, 16, &[DAY, HOUR, MINUTE]),
        (Nankai, 0, &[]),
        (Tsunami, 5, &[]),
        (Volcano, 5, &[DAY, HOUR, MINUTE, STRENGTH]),
        (AshFall, 4, &[DAY, MINUTE]),
        (Flood, 3, &[DAY, HOUR, MINUTE]),
    ];
    for (category, count, lacking) in rows {
        for number in 0..16 {
            let all = [DAY, HOUR, MINUTE, STRENGTH, PLACE, WIDE_PLACE];
            for put in if number < count { lacking } else { &all } {
                let answer = writing(category, |record| put(&mut record.slots[number]));
                assert_eq!(answer, (11, 0), "{category:?} {number}");
            }
        }
    }
}

#[test]
fn a_value_too_wide_is_out_of_range_whatever_its_low_bits_say() {
    assert_eq!(writing(Hypocenter, |record| record.rc = 8 + 7), (8, 14));
    assert_eq!(writing(Hypocenter, |record| record.month = 16 + 3), (8, 21));
    assert_eq!(writing(Hypocenter, |record| record.it = 4), (8, 41));
    assert_eq!(writing(Intensity, |record| record.slots[0].place = 64 + 44), (8, 72));
    assert_eq!(writing(Intensity, |record| record.slots[0].place = u64::MAX), (8, 72));
    assert_eq!(writing(Intensity, |record| record.slots[0].place += 1 << 32), (8, 72));
    assert_eq!(writing(AshFall, |record| record.slots[0].place += 1 << 23), (8, 89));
    assert_eq!(writing(AshFall, |record| record.slots[0].place += 1 << 63), (8, 89));
    assert_eq!(writing(AshFall, |record| record.slots[3].hour = 8 + 2), (8, 170));
    assert_eq!(writing(Nankai, |record| record.reserved = 63), (0, 0));
    assert_eq!(writing(Nankai, |record| record.reserved = 64), (8, 220));
    assert_eq!(writing(Nankai, |record| record.reserved = 255), (8, 220));
}

#[test]
fn a_slot_whose_low_bits_are_zero_is_not_empty() {
    let change = |record: &mut Record| {
        record.slots[3] = Slot { hour: 8, strength: 8, place: 1 << 23, ..Slot::default() };
    };
    assert_eq!(writing(AshFall, change), (8, 170));
    let far = |record: &mut Record| {
        record.slots[15] = Slot { place: 1 << 32, ..Slot::default() };
    };
    assert_eq!(writing(Intensity, far), (10, 204));
}

#[test]
fn pages_are_bounded_by_each_other() {
    let page_of = |(page, total)| {
        writing(Nankai, |record| record.body = Body::Nankai { serial: 5, page, total })
    };
    assert_eq!([(1, 1), (63, 63), (1, 63)].map(page_of), [(0, 0); 3]);
    assert_eq!([(0, 0), (0, 5), (64, 64), (255, 1)].map(page_of), [(8, 201); 4]);
    assert_eq!([(5, 4), (1, 0), (1, 64), (63, 255)].map(page_of), [(8, 207); 4]);
}

#[test]
fn slots_with_gaps_and_halves() {
    let clear = |numbers: &'static [usize]| {
        move |record: &mut Record| {
            numbers.iter().for_each(|&number| record.slots[number] = Slot::default());
        }
    };
    assert_eq!(writing(Intensity, clear(&[0])), (8, 69));
    assert_eq!(writing(Intensity, clear(&[1])), (10, 87));
    assert_eq!(writing(Intensity, clear(&[8])), (0, 0));
    assert_eq!(writing(AshFall, clear(&[0, 1, 2, 3])), (8, 83));
    assert_eq!(writing(AshFall, clear(&[1, 2])), (10, 170));
    assert_eq!(writing(AshFall, clear(&[1, 2, 3])), (0, 0));
    let half_after_gap = |record: &mut Record| {
        record.slots[1] = Slot::default();
        record.slots[2].hour = 0;
    };
    assert_eq!(writing(AshFall, half_after_gap), (10, 141));
    assert_eq!(writing(AshFall, |record| record.slots[2].hour = 0), (8, 141));
    assert_eq!(writing(AshFall, |record| record.slots[2].strength = 0), (8, 144));
    assert_eq!(writing(AshFall, |record| record.slots[2].place = 0), (8, 147));
}

#[test]
fn the_lowest_bit_decides() {
    let reserved_and_gap = |record: &mut Record| {
        record.reserved = 64;
        record.slots[1] = Slot::default();
    };
    assert_eq!(writing(Intensity, reserved_and_gap), (10, 87));
    let minute_and_gap = |record: &mut Record| {
        reserved_and_gap(record);
        record.minute = 60;
    };
    assert_eq!(writing(Intensity, minute_and_gap), (8, 35));
}
