//! The list of places, as table 4.1.2-33 prints it, and how places stand to it.

use reference::generate::{frame_with_places, WITH_PLACES};
use reference::meaning::prefecture;
use reference::place::{standing, Standing, CODES};
use reference::random::Random;
use reference::read::read;
use reference::record::Record;
use reference::samples;

/// The ends of the range that tables 4.1.2-30 and 4.1.2-35 give for a place.
const LOWEST: u64 = 110_000;
const HIGHEST: u64 = 4_799_999;

/// Whether the slots of a record name places of the table.
fn has_places(record: &Record) -> bool {
    record.body.category().is_some_and(|category| WITH_PLACES.contains(&category))
}

fn each_is(expected: Standing, places: &[u64]) {
    places.iter().for_each(|&place| assert_eq!(standing(place), expected, "{place}"));
}

/// Part 1 has three columns of 25 codes, parts 2 to 15 have three of 40, and the
/// columns of part 16 have 13, 13 and 11. The first code of each part stands behind as
/// many as the parts before it have.
#[test]
fn as_many_codes_as_are_printed() {
    const FIRST: [u32; 16] = [
        110_000, 142_700, 230_400, 536_800, 822_400, 1_123_800, 1_321_100, 1_721_000, 2_045_200,
        2_322_600, 2_721_300, 3_020_800, 3_520_600, 4_020_500, 4_342_300, 4_721_000,
    ];
    let mut before = 0;
    for (part, code) in FIRST.into_iter().enumerate() {
        assert_eq!(CODES[before], code);
        before += match part {
            0 => 3 * 25,
            15 => 13 + 13 + 11,
            _ => 3 * 40,
        };
    }
    assert_eq!(before, CODES.len());
}

/// So no code is there twice.
#[test]
fn the_codes_rise() {
    assert!(CODES.windows(2).all(|pair| pair[0] < pair[1]));
    let ends = [CODES.first(), CODES.last()].map(|end| end.copied().map(u64::from));
    assert_eq!(ends, [Some(LOWEST), Some(HIGHEST)]);
}

#[test]
fn every_prefecture_has_codes_and_one_for_the_others() {
    for number in 1..=47 {
        let in_it = |code: &&u32| prefecture(u64::from(**code)) == Some(number);
        let own: Vec<u64> = CODES.iter().filter(in_it).map(|&code| code.into()).collect();
        assert!(own.len() > 1, "{number}");
        assert_eq!(own.last(), Some(&(number * 100_000 + 99_999)));
        each_is(Standing::Listed, &own);
        each_is(Standing::Unlisted, &[number * 100_000, number * 100_000 + 99_998]);
    }
    assert!(CODES.iter().all(|&code| prefecture(code.into()).is_some()));
    assert_eq!(CODES.iter().filter(|&code| code % 100_000 == 99_999).count(), 47);
}

/// The first row of each column of part 1, the only two codes that end neither in 00
/// nor in 99999, and the last row of each column of part 16.
#[test]
fn codes_by_hand() {
    each_is(Standing::Listed, &[110_000, 122_600, 136_700, 169_001, 169_002]);
    each_is(Standing::Listed, &[4_731_300, 4_735_500, 4_799_999]);
    each_is(Standing::Unlisted, &[100_000, 109_999, 110_001, 169_000, 169_003]);
    each_is(Standing::Unlisted, &[199_998, 200_000, 4_738_300, 4_799_998]);
    each_is(Standing::Outside, &[0, 1, 47, 99_999, 4_800_000, 4_899_999, (1 << 23) - 1]);
}

#[test]
fn low_bits_alone_are_not_listed() {
    for &code in &CODES {
        let wider = (23..u64::BITS).map(|bit| u64::from(code) + (1 << bit));
        each_is(Standing::Outside, &wider.collect::<Vec<_>>());
    }
    each_is(Standing::Outside, &[u64::MAX, u64::MAX - 4_799_999]);
}

/// Document 004 names Aso, Takamori and Minamiaso. What the slots of other categories
/// name are no places of this table, and an empty slot names nothing.
#[test]
fn document_004_names_listed_places_alone() {
    let (mut named, mut others) = (Vec::new(), Vec::new());
    for record in samples::all() {
        for place in record.slots.map(|slot| slot.place) {
            let is_named = has_places(&record) && place != 0;
            if is_named { &mut named } else { &mut others }.push(place);
        }
    }
    each_is(Standing::Listed, &named);
    each_is(Standing::Outside, &others);
    named.sort_unstable();
    named.dedup();
    assert_eq!(named, [4_321_400, 4_342_800, 4_343_300]);
}

#[test]
fn no_place_of_the_range_is_outside() {
    for place in LOWEST..=HIGHEST {
        assert_ne!(standing(place), Standing::Outside, "{place}");
    }
}

/// A frame is read whether the table has its place or not, up to the ends of the
/// range: 100000 to 109999 lie in a prefecture and are refused all the same.
#[test]
fn what_is_read_is_listed_or_unlisted() {
    let mut random = Random::new(33);
    let near = |code: &u32| u64::from(*code) - 1..=u64::from(*code) + 1;
    for place in CODES.iter().flat_map(near).chain([0, 99_999, 100_000, (1 << 23) - 1]) {
        for category in WITH_PLACES {
            let answer = read(&frame_with_places(&mut random, category, &[place]));
            assert_eq!(answer.is_ok(), (LOWEST..=HIGHEST).contains(&place), "{place}");
            if let Ok(record) = answer {
                assert_eq!(record.slots[0].place, place);
                assert_ne!(standing(place), Standing::Outside, "{place}");
            }
        }
    }
}
