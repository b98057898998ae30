//! What a store refuses, in which order, and what is left after it.

use crate::words::*;
use reference::generate::{any_record, any_taking, Bulletin};
use reference::random::Random;
use reference::record::{Body, Record, Refusal};
use reference::samples;
use reference::store::{place_of_page, Name, Report, Store, DISPUTED, HELD};
use reference::write::write;

/// The values of a name: the first bit, what is in range and what is not.
const RANGES: [(u8, &[u8], &[u8]); 8] = [
    (14, &[2, 7], &[0, 1, 3, 4, 5, 6, 8, 255]),
    (21, &[1, 12], &[0, 13, 16, 17, 255]),
    (25, &[1, 31], &[0, 32, 33, 255]),
    (30, &[0, 23], &[24, 31, 32, 255]),
    (35, &[0, 59], &[60, 63, 64, 255]),
    (41, &[0, 2], &[1, 3, 4, 255]),
    (53, &[1, 15], &[0, 16, 17, 255]),
    (207, &[1, 63], &[0, 64, 65, 255]),
];

fn name_with(place: usize, value: u8) -> Name {
    let mut bytes = NAME.to_bytes();
    bytes[place] = value;
    Name::of_bytes(bytes)
}

/// Bytes of the store of two held pages, one absent, with some overwritten.
fn damaged(changes: &[(usize, u8)]) -> Store {
    let mut bytes = store_of(&[(1, SPRING), (2, SUMMER)]).to_bytes();
    for &(place, value) in changes {
        bytes[place] = value;
    }
    Store::of_bytes(&bytes)
}

fn unsound_stores() -> Vec<Store> {
    let mut stores = vec![Store::ZEROS];
    let page = place_of_page;
    for mark in 3..=255 {
        stores.push(damaged(&[(page(0), mark)]));
        stores.push(damaged(&[(page(62), mark)]));
    }
    for absent in 2..63 {
        stores.extend((1..=18).map(|byte| damaged(&[(page(absent) + byte, 1)])));
    }
    stores.push(damaged(&[(page(0), 0)]));
    stores.push(damaged(&[(page(0), DISPUTED)]));
    stores.push(damaged(&[(page(2), DISPUTED), (page(2) + 18, 1)]));
    stores.push(damaged(&[(page(3), HELD)]));
    stores.push(damaged(&[(page(62), DISPUTED)]));
    stores.push(damaged(&[(7, 1)]));
    for (place, (_, _, wrong)) in RANGES.iter().enumerate() {
        stores.extend(wrong.iter().map(|&value| damaged(&[(place, value)])));
    }
    stores
}

#[test]
fn every_name_in_range_is_opened() {
    for (place, (_, right, _)) in RANGES.iter().enumerate() {
        for &value in *right {
            let name = name_with(place, value);
            assert_eq!(opened(name), Store { name, ..Store::ZEROS });
            assert!(opened(name).is_sound());
        }
    }
    assert!(opened(Name { month: 2, day: 31, ..NAME }).is_sound());
}

#[test]
fn opening_is_8_at_the_first_bad_value() {
    for (first, &(bit, _, wrong)) in RANGES.iter().enumerate() {
        for &value in wrong {
            let expected = (out_of_range(bit, value.into()), Store::ZEROS);
            let mut bytes = name_with(first, value).to_bytes();
            assert_eq!(Store::open(Name::of_bytes(bytes)), expected);
            bytes[first + 1..].fill(255);
            assert_eq!(Store::open(Name::of_bytes(bytes)), expected);
        }
    }
}

#[test]
fn held_bytes_and_states_may_be_any_within_the_total() {
    assert!(damaged(&[]).is_sound());
    assert!(damaged(&[(place_of_page(2), HELD)]).is_sound());
    assert!(damaged(&[(place_of_page(2), DISPUTED)]).is_sound());
    assert!(damaged(&[(place_of_page(1) + 18, 0)]).is_sound());
    assert!(damaged(&[(7, 2)]).is_sound());
    assert!(damaged(&[(7, 63), (place_of_page(62), HELD)]).is_sound());
}

#[test]
fn each_call_on_a_store_that_is_not_sound_is_14() {
    let sound = store_of(&[(1, SPRING)]);
    let other_name = opened(Name { serial: 6, ..NAME });
    for store in unsound_stores() {
        assert!(!store.is_sound());
        let mut after = store;
        assert_eq!(after.take(&NAME.page(1, SPRING)), refused(14));
        assert_eq!(after.take(&Record::default()), refused(14));
        assert_eq!(after.merge(&sound), refused(14));
        assert_eq!(after, store);
        for mut ours in [sound, other_name] {
            let before = ours;
            assert_eq!(ours.merge(&store), refused(14));
            assert_eq!(ours, before);
        }
        assert_eq!(store.report(), (refused(14), Report::default()));
        let mut buffer = [0xA5; 20];
        assert_eq!(store.text(&mut buffer), refused(14));
        assert_eq!(buffer, [0xA5; 20]);
    }
}

#[test]
fn taking_refuses_what_writing_refuses_then_12_then_13() {
    let mut random = Random::new(1213);
    let texts = vec![SPRING, SUMMER];
    let bulletin = Bulletin { name: NAME, near: Name { it: 2, ..NAME }, texts };
    for number in 0..50_000 {
        let before = store_of(&[(1, SPRING)]);
        let mut store = before;
        let record = match number % 2 {
            0 => any_record(&mut random),
            _ => any_taking(&mut random, &bulletin),
        };
        let answer = store.take(&record);
        let page_of_it = Name::of_record(&record) == Some(NAME);
        match (write(&record, &mut [0; 32]), record.body) {
            (Err(refusal), _) => assert_eq!(answer, Err(refusal)),
            (Ok(()), Body::Nankai { .. }) if page_of_it => assert!(answer.is_ok()),
            (Ok(()), Body::Nankai { .. }) => assert_eq!(answer, refused(13)),
            (Ok(()), _) => assert_eq!(answer, refused(12)),
        }
        if answer.is_err() {
            assert_eq!(store, before);
        }
    }
}

#[test]
fn another_value_in_the_name_is_another_bulletin() {
    let store = store_of(&[(1, SPRING)]);
    for (place, value) in [2, 4, 12, 5, 36, 2, 6, 4].into_iter().enumerate() {
        let name = name_with(place, value);
        let mut after = store;
        assert_eq!(after.take(&name.page(1, SPRING)), refused(13));
        assert_eq!(after.merge(&opened(name)), refused(13));
        assert_eq!(after, store);
    }
}

#[test]
fn other_categories_are_12_and_wrong_pages_8() {
    let mut store = opened(NAME);
    let others = [
        samples::hypocenter(),
        samples::intensity(),
        samples::tsunami_warning(),
        samples::volcano(),
        samples::ash_fall_detailed(),
        samples::flood_warning(),
    ];
    for record in others {
        assert_eq!(store.take(&record[0]), refused(12));
    }
    assert_eq!(store.take(&NAME.page(0, SPRING)), out_of_range(201, 0));
    assert_eq!(store.take(&NAME.page(4, SPRING)), out_of_range(207, 3));
    assert_eq!(store.take(&NAME.page(64, SPRING)), out_of_range(201, 64));
    assert_eq!(store, opened(NAME));
}

/// What writing refuses is refused before another category or bulletin is seen,
/// a spare too wide among it.
#[test]
fn a_page_with_a_spare_too_wide_is_8_at_the_spare() {
    let sound = store_of(&[(1, SPRING)]);
    let page = NAME.page(1, SPRING);
    let other_bulletin = Name { serial: 6, ..NAME }.page(1, SPRING);
    for (spares, place, value) in [
        ([1024, 0], 43, 1024),
        ([u64::MAX, 0], 43, u64::MAX),
        ([0, 2], 213, 2),
        ([1023, 3], 213, 3),
        ([0, u64::MAX], 213, u64::MAX),
        ([1024, 2], 43, 1024),
    ] {
        for record in [page, other_bulletin] {
            let (mut store, mut unsound) = (sound, Store::ZEROS);
            assert_eq!(store.take(&Record { spares, ..record }), out_of_range(place, value));
            assert_eq!(store, sound);
            assert_eq!(unsound.take(&Record { spares, ..record }), refused(14));
        }
    }
    let mut store = sound;
    let quake = samples::hypocenter()[0];
    assert_eq!(store.take(&Record { spares: [0, 1 << 51], ..quake }), out_of_range(163, 1 << 51));
    assert_eq!(store.take(&Record { spares: [0, (1 << 51) - 1], ..quake }), refused(12));
    assert_eq!(store.take(&Record { spares: [1023, 1], ..other_bulletin }), refused(13));
    let tsunami = samples::tsunami_warning()[0];
    assert_eq!(store.take(&Record { spares: [0, 1], ..tsunami }), refused(11));
    assert_eq!(store, sound);
}

#[test]
fn text_is_15_with_the_lowest_page_and_its_mark_then_16() {
    let not_held = |page, mark| Err(Refusal { number: 15, place: 0, page, mark, value: 0 });
    let cases = [
        (vec![], not_held(1, 1)),
        (vec![(1, SPRING), (3, SPRING), (3, SUMMER)], not_held(2, 1)),
        (vec![(2, SPRING), (2, SUMMER), (1, SPRING)], not_held(2, 2)),
        (vec![(1, SPRING), (2, SPRING), (3, SPRING)], refused(16)),
    ];
    for (pages, expected) in cases {
        for length in [0, 1, 53] {
            let mut buffer = vec![0xA5; length];
            assert_eq!(store_of(&pages).text(&mut buffer), expected);
            assert_eq!(buffer, vec![0xA5; length]);
        }
    }
    let full = store_of(&[(1, SPRING), (2, SPRING), (3, SPRING)]);
    assert_eq!(full.text(&mut [0; 54]), Ok(54));
}
