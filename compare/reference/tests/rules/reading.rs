//! Reading: values checked by hand, and the order of the refusals.

use crate::common::{base_frame, changed, outcome, reading};
use reference::bits::{set, Frame};
use reference::read::read;
use reference::record::Category::{
    self, AshFall, Flood, Hypocenter, Intensity, Nankai, Tsunami, Volcano,
};

/// The digits of a frame line as a frame, two padding bits added to 252.
fn of_digits(digits: &str) -> Frame {
    let mut frame = [0; 32];
    for (number, digit) in digits.chars().enumerate() {
        let digit = digit.to_digit(16).expect("a hexadecimal digit");
        set(&mut frame, 4 * number, 4, digit.into());
    }
    frame
}

#[test]
fn the_lines_of_the_listing_example() {
    let zeros = "0".repeat(63);
    assert_eq!(outcome(read(&of_digits(&zeros))), (3, 0));
    assert_eq!(outcome(read(&of_digits(&format!("53{}", "0".repeat(61))))), (4, 0));
    assert_eq!(outcome(read(&of_digits(&format!("{}1", "0".repeat(62))))), (2, 0));
}

#[test]
fn the_values_to_prove_of_category_2() {
    let depth = |value| reading(Hypocenter, &[(96, 9, value)]);
    assert_eq!([501, 502, 510, 511].map(depth), [(0, 0), (8, 96), (8, 96), (0, 0)]);
    let magnitude = |value| reading(Hypocenter, &[(105, 7, value)]);
    assert_eq!([0, 1, 101].map(magnitude), [(8, 105), (0, 0), (0, 0)]);
    assert_eq!([102, 125, 126, 127].map(magnitude), [(8, 105), (8, 105), (0, 0), (0, 0)]);
    let notification = |value| reading(Hypocenter, &[(53, 9, value)]);
    assert_eq!([100, 101, 500, 501].map(notification), [(8, 53), (0, 0), (0, 0), (8, 53)]);
    let epicenter = |value| reading(Hypocenter, &[(112, 10, value)]);
    assert_eq!([10, 11, 1000, 1001].map(epicenter), [(8, 112), (0, 0), (0, 0), (8, 112)]);
    let longitude = |value| reading(Hypocenter, &[(143, 8, value)]);
    assert_eq!([179, 180].map(longitude), [(0, 0), (8, 143)]);
}

#[test]
fn the_values_to_prove_of_the_other_categories() {
    let record = read(&changed(&base_frame(Intensity), &[(69, 9, 300)])).expect("it is read");
    assert_eq!((record.slots[0].strength, record.slots[0].place), (4, 44));
    assert_eq!(reading(Nankai, &[(201, 6, 1), (207, 6, 0)]), (8, 207));
    assert_eq!(reading(Intensity, &[(78, 3, 3), (81, 6, 0)]), (8, 81));
}

#[test]
fn a_notification_may_follow_none() {
    assert_eq!(reading(Hypocenter, &[(53, 9, 0), (62, 9, 0), (71, 9, 101)]), (0, 0));
}

#[test]
fn pages_are_bounded_by_each_other() {
    let page_of = |(page, total)| reading(Nankai, &[(201, 6, page), (207, 6, total)]);
    assert_eq!([(1, 1), (4, 4), (63, 63), (1, 63)].map(page_of), [(0, 0); 4]);
    assert_eq!([(0, 0), (0, 5), (0, 63)].map(page_of), [(8, 201); 3]);
    assert_eq!([(5, 4), (1, 0), (63, 62)].map(page_of), [(8, 207); 3]);
}

#[test]
fn places_of_ash_fall_begin_at_110000() {
    let place = |value| reading(AshFall, &[(89, 23, value)]);
    assert_eq!([100_000, 109_999, 4_800_000, 8_388_607].map(place), [(8, 89); 4]);
    assert_eq!([110_000, 4_799_999].map(place), [(0, 0); 2]);
}

#[test]
fn volcano_ash_fall_and_flood_know_a_correction() {
    for category in Category::ALL {
        let known = [Volcano, AshFall, Flood].contains(&category);
        let correction = if known { (0, 0) } else { (8, 41) };
        let expected = [(0, 0), correction, (0, 0), (8, 41)];
        assert_eq!([0, 1, 2, 3].map(|it| reading(category, &[(41, 2, it)])), expected);
    }
}

#[test]
fn each_category_has_the_rc_of_its_own_table() {
    for category in Category::ALL {
        let right: &[u64] = match category {
            Tsunami => &[1, 3, 7],
            Volcano | Flood => &[2, 3, 7],
            _ => &[2, 7],
        };
        for rc in 0..8 {
            let expected = if right.contains(&rc) { (0, 0) } else { (8, 14) };
            assert_eq!(reading(category, &[(14, 3, rc)]), expected, "{category:?} {rc}");
        }
    }
}

#[test]
fn every_other_category_is_7() {
    for code in 0..16 {
        let numbers = Category::ALL.map(|category| reading(category, &[(17, 4, code)]).0);
        if [2, 3, 4, 5, 8, 9, 11].contains(&code) {
            // The frame that has this category from the start is read.
            assert!(numbers.contains(&0) && !numbers.contains(&7), "{code}");
        } else {
            assert_eq!(numbers, [7; 7], "{code}");
        }
    }
}

/// Every rule in turn: a frame that breaks this one and all later ones.
#[test]
fn the_refusals_of_the_envelope_come_in_order() {
    for category in Category::ALL {
        let base = base_frame(category);
        let bad = [(0, 8, 0), (8, 6, 44), (214, 6, 2), (17, 4, 10), (14, 3, 0), (41, 2, 3)];
        let mut worst = changed(&base, &bad);
        set(&mut worst, 250, 6, 1);
        assert_eq!(outcome(read(&worst[..31])), (1, 0));
        assert_eq!(outcome(read(&worst)), (2, 0));
        assert_eq!(outcome(read(&changed(&base, &bad))), (3, 0));
        let mut parity_off = changed(&base, &bad[1..]);
        parity_off[30] ^= 1;
        assert_eq!(outcome(read(&parity_off)), (4, 0));
        assert_eq!(outcome(read(&changed(&base, &bad[1..]))), (5, 0));
        assert_eq!(outcome(read(&changed(&base, &bad[2..]))), (6, 0));
        assert_eq!(outcome(read(&changed(&base, &bad[3..]))), (7, 0));
        assert_eq!(outcome(read(&changed(&base, &bad[4..]))), (8, 14));
        assert_eq!(outcome(read(&changed(&base, &bad[5..]))), (8, 41));
        assert_eq!(outcome(read(&base)), (0, 0));
    }
}

#[test]
fn every_single_padding_bit_is_refused() {
    for position in 250..256 {
        let mut frame = base_frame(Nankai);
        set(&mut frame, position, 1, 1);
        assert_eq!(outcome(read(&frame)), (2, 0));
    }
}

#[test]
fn the_lowest_bit_decides_between_range_and_gap() {
    assert_eq!(reading(Hypocenter, &[(41, 2, 3), (96, 9, 502)]), (8, 41));
    assert_eq!(reading(Hypocenter, &[(96, 9, 502), (157, 6, 60)]), (8, 96));
    // A slot out of range before a gap, and a gap before a slot out of range.
    assert_eq!(reading(Intensity, &[(72, 6, 48), (78, 9, 0)]), (8, 72));
    assert_eq!(reading(Intensity, &[(78, 9, 0), (96, 3, 0)]), (10, 87));
}

#[test]
fn a_gap_is_told_before_the_fields_of_its_slot() {
    assert_eq!(reading(Intensity, &[(78, 9, 0), (87, 3, 0)]), (10, 87));
    assert_eq!(reading(AshFall, &[(112, 29, 0), (141, 3, 7)]), (10, 141));
    assert_eq!(reading(AshFall, &[(112, 29, 0), (141, 29, 0)]), (10, 170));
}

#[test]
fn a_first_slot_of_zeros_is_out_of_range_and_no_gap() {
    assert_eq!(reading(Intensity, &[(69, 9, 0)]), (8, 69));
    assert_eq!(reading(AshFall, &[(83, 29, 0)]), (8, 83));
    assert_eq!(reading(AshFall, &[(83, 29, 0), (112, 29, 0)]), (8, 83));
}

#[test]
fn a_half_filled_slot_is_refused_at_its_first_bad_field() {
    assert_eq!(reading(AshFall, &[(170, 3, 0)]), (8, 170));
    assert_eq!(reading(AshFall, &[(173, 3, 0)]), (8, 173));
    assert_eq!(reading(AshFall, &[(176, 23, 0)]), (8, 176));
    assert_eq!(reading(AshFall, &[(170, 6, 0)]), (8, 170));
    assert_eq!(reading(AshFall, &[(170, 29, 0)]), (0, 0));
}

#[test]
fn days_are_not_checked_against_months() {
    assert_eq!(reading(Hypocenter, &[(21, 4, 2), (25, 5, 31)]), (0, 0));
}
