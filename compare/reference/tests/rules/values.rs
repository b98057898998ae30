//! The value that a refusal of number 8 has beside its place.

use crate::common::{read_changed, told, write_changed};
use reference::bits::{get, Frame};
use reference::fields::{fields_and_parts, Field, PAGE_NUMBER_FIRST, PAGE_TOTAL_FIRST, RESERVED};
use reference::generate::{any_frame, any_record, set_number};
use reference::random::Random;
use reference::read::read;
use reference::record::Category::{
    self, AshFall, Flood, Hypocenter, Intensity, Nankai, Tsunami, Volcano,
};
use reference::record::{Body, Record, Refusal, Slot};
use reference::write::{placed, write};

const COUNT: usize = 200_000;

/// First bit, width and value of fields that are changed.
type Values = &'static [(usize, usize, u64)];

/// What is put into a sample, and the place and the value that are told of it.
const FAULTS: [(Category, Values, u8, u64); 35] = [
    (Hypocenter, &[(14, 3, 3)], 14, 3),
    (Hypocenter, &[(21, 4, 13)], 21, 13),
    (Hypocenter, &[(25, 5, 0)], 25, 0),
    (Hypocenter, &[(53, 9, 100)], 53, 100),
    (Hypocenter, &[(71, 9, 511)], 71, 511),
    (Hypocenter, &[(96, 9, 502)], 96, 502),
    (Hypocenter, &[(105, 7, 102)], 105, 102),
    (Hypocenter, &[(105, 7, 0)], 105, 0),
    (Hypocenter, &[(112, 10, 1023)], 112, 1023),
    (Hypocenter, &[(143, 8, 255)], 143, 255),
    (Intensity, &[(72, 6, 48)], 72, 48),
    (Intensity, &[(69, 3, 0), (72, 6, 63)], 69, 0),
    (Nankai, &[(201, 6, 0), (207, 6, 0)], 201, 0),
    (Nankai, &[(201, 6, 3), (207, 6, 2)], 207, 2),
    (Nankai, &[(201, 6, 63), (207, 6, 62)], 207, 62),
    (Tsunami, &[(85, 5, 31), (90, 6, 5)], 85, 31),
    (Tsunami, &[(85, 5, 24), (90, 6, 63)], 85, 24),
    (Tsunami, &[(85, 5, 5), (90, 6, 63)], 90, 63),
    (Tsunami, &[(85, 5, 31), (90, 6, 63), (111, 5, 30)], 111, 30),
    (Tsunami, &[(100, 10, 1001)], 100, 1001),
    (Volcano, &[(53, 5, 0), (58, 5, 31), (63, 6, 5)], 53, 0),
    (Volcano, &[(53, 5, 0), (58, 5, 5), (63, 6, 63)], 53, 0),
    (Volcano, &[(53, 5, 0), (58, 5, 0), (63, 6, 0)], 53, 0),
    (Volcano, &[(53, 5, 5), (58, 5, 31), (63, 6, 63)], 58, 31),
    (Volcano, &[(53, 5, 5), (58, 5, 5), (63, 6, 63)], 63, 63),
    (Volcano, &[(53, 5, 0), (58, 5, 31), (63, 6, 63), (69, 7, 0)], 69, 0),
    (Volcano, &[(76, 12, 100)], 76, 100),
    (Volcano, &[(88, 23, 0)], 88, 0),
    (Volcano, &[(134, 23, 8_388_607)], 134, 8_388_607),
    (AshFall, &[(71, 12, 4095)], 71, 4095),
    (AshFall, &[(89, 23, 8_388_607)], 89, 8_388_607),
    (Flood, &[(53, 4, 0)], 53, 0),
    (Flood, &[(57, 40, 10_175_000_099)], 57, 10_175_000_099),
    (Flood, &[(57, 40, 900_000_000_000)], 57, 900_000_000_000),
    (Flood, &[(97, 4, 1), (101, 40, 1_099_511_627_775)], 101, 1_099_511_627_775),
];

/// What reading says of a sample with these values, and what writing says.
fn both_told(category: Category, values: &[(usize, usize, u64)]) -> [(u8, u8, u64); 2] {
    let put = |record: &mut Record| {
        values.iter().for_each(|&(first, _, value)| set_number(record, first, value));
    };
    [told(read_changed(category, values)), told(write_changed(category, put))]
}

#[test]
fn what_stands_in_the_field_of_a_frame_or_a_record() {
    for (category, values, place, value) in FAULTS {
        assert_eq!(both_told(category, values), [(8, place, value); 2]);
    }
}

/// A bit of the frame, what is put there in a record, and what the record then
/// has: it keeps no more than its number can hold.
const TOO_WIDE: [(Category, usize, u64, u64); 29] = [
    (Hypocenter, 14, 8 + 7, 15),
    (Hypocenter, 41, u64::MAX, 255),
    (Hypocenter, 53, 512 + 101, 613),
    (Hypocenter, 96, u64::MAX, 65_535),
    (Hypocenter, 105, 128 + 1, 129),
    (Hypocenter, 122, 2, 2),
    (Hypocenter, 163, 1 << 51, 1 << 51),
    (Hypocenter, 163, u64::MAX, u64::MAX),
    (Hypocenter, 220, 64, 64),
    (Intensity, 72, (1 << 32) + 44, (1 << 32) + 44),
    (Intensity, 213, 2, 2),
    (Nankai, 43, 1024, 1024),
    (Nankai, 207, u64::MAX, 255),
    (Tsunami, 84, 2, 2),
    (Tsunami, 90, 64 + 63, 127),
    (Volcano, 43, 128, 128),
    (Volcano, 50, 8, 8),
    (Volcano, 53, 32, 32),
    (Volcano, 63, 64 + 63, 127),
    (Volcano, 69, 128 + 52, 180),
    (Volcano, 76, 4096 + 503, 4599),
    (Volcano, 88, (1 << 23) + 4_321_400, (1 << 23) + 4_321_400),
    (Volcano, 203, 2048, 2048),
    (AshFall, 89, u64::MAX, u64::MAX),
    (AshFall, 199, 32_768, 32_768),
    (Flood, 53, 16 + 2, 18),
    (Flood, 57, (1 << 40) + 830_303_020_300, (1 << 40) + 830_303_020_300),
    (Flood, 57, u64::MAX, u64::MAX),
    (Flood, 185, 1 << 29, 1 << 29),
];

#[test]
fn a_number_of_a_record_too_wide_is_told_with_all_its_bits() {
    for (category, first, value, kept) in TOO_WIDE {
        let answer = write_changed(category, |record| set_number(record, first, value));
        assert_eq!(told(answer), (8, first as u8, kept));
    }
}

#[test]
fn a_refused_total_is_told_and_not_the_page_number() {
    let page_of = |page, total| {
        let body = Body::Nankai { serial: 5, page, total };
        told(write_changed(Nankai, |record| record.body = body))
    };
    assert_eq!(page_of(3, 2), (8, 207, 2));
    assert_eq!(page_of(1, 0), (8, 207, 0));
    assert_eq!(page_of(1, 64), (8, 207, 64));
    assert_eq!(page_of(63, 255), (8, 207, 255));
    assert_eq!(page_of(64, 2), (8, 201, 64));
    assert_eq!(page_of(0, 64), (8, 201, 0));
}

/// From the back to the front, each value is told before those behind it.
#[test]
fn of_several_faults_the_value_is_that_of_the_lowest_bit() {
    let faults: [(usize, usize, u64); 7] = [
        (157, 6, 61),
        (143, 8, 181),
        (112, 10, 1002),
        (105, 7, 103),
        (90, 6, 62),
        (53, 9, 99),
        (30, 5, 25),
    ];
    for count in 1..=faults.len() {
        let (first, _, value) = faults[count - 1];
        assert_eq!(both_told(Hypocenter, &faults[..count]), [(8, first as u8, value); 2]);
    }
}

#[test]
fn a_gap_has_no_value_whatever_its_slot_holds() {
    assert_eq!(told(read_changed(Intensity, &[(78, 9, 0), (87, 9, 63)])), (10, 87, 0));
    assert_eq!(told(read_changed(AshFall, &[(112, 29, 0), (141, 3, 7)])), (10, 141, 0));
    let put = |record: &mut Record| {
        record.slots[1] = Slot::default();
        record.slots[2].hour = 255;
    };
    assert_eq!(told(write_changed(AshFall, put)), (10, 141, 0));
}

/// With 8, the value is what stands at the place, and not a normal value of the
/// field there; with any other number it is 0.
fn judge(category: Option<Category>, refusal: Refusal, value_at: impl Fn(&Field) -> u64) {
    if refusal.number != 8 {
        assert_eq!(refusal.value, 0, "{refusal:?}");
        return;
    }
    let category = category.expect("only what has a category has fields");
    let all = [fields_and_parts(category), vec![RESERVED]].concat();
    let at = |first: usize| all.iter().find(|field| field.first == first).expect("a field");
    let field = at(refusal.place.into());
    assert_eq!(refusal.value, value_at(field), "{refusal:?}");
    let normal = if category == Nankai && field.first == PAGE_TOTAL_FIRST {
        (value_at(at(PAGE_NUMBER_FIRST))..=63).contains(&refusal.value)
    } else {
        field.allows(refusal.value)
    };
    assert!(!normal, "{category:?} {refusal:?}");
}

#[test]
fn the_value_of_a_frame_is_what_stands_at_the_place() {
    let mut random = Random::new(105);
    let mut judged = 0;
    for _ in 0..COUNT {
        let bytes = any_frame(&mut random);
        let Err(refusal) = read(&bytes) else {
            continue;
        };
        let frame = Frame::try_from(bytes).unwrap_or([0; 32]);
        let category = Category::of_code(get(&frame, 17, 4));
        judge(category, refusal, |field| get(&frame, field.first, field.width));
        judged += usize::from(refusal.number == 8);
    }
    assert!(judged > COUNT / 8, "{judged}");
}

#[test]
fn the_value_of_a_record_is_what_the_record_has_for_the_place() {
    let mut random = Random::new(106);
    let mut judged = 0;
    for _ in 0..COUNT {
        let record = any_record(&mut random);
        let Err(refusal) = write(&record, &mut [0; 32]) else {
            continue;
        };
        let category = record.body.category();
        let numbers = category.map_or(Vec::new(), |category| placed(&record, category));
        judge(category, refusal, |field| {
            let number = numbers.iter().find(|number| number.first == field.first);
            number.map_or(record.reserved.into(), |number| number.value)
        });
        judged += usize::from(refusal.number == 8);
    }
    assert!(judged > COUNT / 8, "{judged}");
}
