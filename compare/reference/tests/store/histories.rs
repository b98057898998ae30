//! The two accounts of the store agree on random histories, and the histories
//! reach what they are meant to reach.

use crate::words::merged;
use reference::answer::Answer;
use reference::generate::*;
use reference::history::History;
use reference::player::{Histories, Player, Step, Stores, STORES};
use reference::random::Random;
use reference::store::{Store, PAGES};
use reference::write::write;
use std::collections::BTreeSet;

const COUNT: usize = 10_000;

#[test]
fn by_states_and_by_texts_taken_they_answer_the_same() {
    let mut random = Random::new(3);
    for number in 0..COUNT {
        let mut stores = Stores::default();
        let mut histories = Histories::default();
        for step in any_history(&mut random) {
            let outcome = stores.play(&step);
            assert_eq!(outcome, histories.play(&step), "history {number}, {step:?}");
            let store = step.store();
            assert_eq!(stores.bytes(store), histories.bytes(store), "history {number}, {step:?}");
        }
        assert!((0..STORES).all(|store| stores.bytes(store) == histories.bytes(store)));
    }
}

/// Opening gives zeros by value where it is refused, and puts them nowhere.
#[test]
fn a_refused_opening_leaves_the_store_that_was_there() {
    let mut random = Random::new(8);
    for _ in 0..COUNT {
        let bulletin = any_bulletin(&mut random);
        let before = any_store(&mut random, &bulletin);
        let put = Step::Put { store: 0, bytes: Box::new(before) };
        let open = Step::Open { store: 0, name: bad_name(&mut random, &bulletin.name) };
        let (mut stores, mut histories) = (Stores::default(), Histories::default());
        for player in [&mut stores as &mut dyn Player, &mut histories] {
            player.play(&put);
            assert_eq!(player.play(&open).answer.number, 8);
            assert_eq!(player.bytes(0), before);
        }
    }
}

/// A store is sound exactly when some history gives it.
#[test]
fn sound_is_what_a_list_of_frames_gives() {
    let mut random = Random::new(4);
    let mut sound_count = 0;
    for _ in 0..COUNT {
        let bulletin = any_bulletin(&mut random);
        let store = Store::of_bytes(&any_store(&mut random, &bulletin));
        assert_eq!(store.is_sound(), History::behind(&store).is_some());
        sound_count += usize::from(store.is_sound());
        assert!(sound_store(&mut random, &bulletin).is_sound());
    }
    assert!(COUNT / 2 < sound_count && sound_count < COUNT * 3 / 4, "{sound_count}");
}

#[test]
fn merging_has_the_laws_of_a_union() {
    let mut random = Random::new(5);
    for _ in 0..COUNT {
        let bulletin = any_bulletin(&mut random);
        let [a, b, c] = [0; 3].map(|_| sound_store(&mut random, &bulletin));
        assert_eq!(merged(&a, &a), a);
        assert_eq!(merged(&a, &b), merged(&b, &a));
        assert_eq!(merged(&merged(&a, &b), &c), merged(&a, &merged(&b, &c)));
        assert_eq!(merged(&a, &Store { name: a.name, ..Store::ZEROS }), a);
    }
}

/// Which call gave which answer: its number and place, the mark of a taking and
/// of a 15, and whether there was a text.
fn seen() -> BTreeSet<(&'static str, u8, u8)> {
    let mut random = Random::new(6);
    let mut seen = BTreeSet::new();
    for _ in 0..COUNT {
        let mut stores = Stores::default();
        for step in any_history(&mut random) {
            let Answer { number, place, page, mark, .. } = stores.play(&step).answer;
            seen.insert(match step {
                Step::Open { .. } => ("open", number, place),
                Step::Take { .. } if number == 0 => ("taken", number, mark),
                Step::Take { .. } => ("take", number, 0),
                Step::Merge { .. } => ("merge", number, 0),
                Step::Report { .. } => ("report", number, 0),
                Step::Text { .. } if number == 0 => ("text", 0, (page != 0 || mark != 0).into()),
                Step::Text { .. } => ("text", number, mark),
                Step::Put { .. } => ("put", number, 0),
            });
        }
    }
    seen
}

#[test]
fn histories_reach_every_answer() {
    let seen = seen();
    let answers = |call: &str| -> Vec<(u8, u8)> {
        let of_call = seen.iter().filter(|(name, ..)| *name == call);
        of_call.map(|&(_, number, second)| (number, second)).collect()
    };
    let bits = [14, 21, 25, 30, 35, 41, 53, 207].map(|bit| (8, bit));
    assert_eq!(answers("open"), [&[(0, 0)], &bits[..]].concat());
    assert_eq!(answers("taken"), [(0, 1), (0, 2), (0, 3)]);
    assert_eq!(answers("take"), [3, 7, 8, 10, 11, 12, 13, 14].map(|number| (number, 0)));
    assert_eq!(answers("merge"), [(0, 0), (13, 0), (14, 0)]);
    assert_eq!(answers("report"), [(0, 0), (14, 0)]);
    assert_eq!(answers("text"), [(0, 0), (0, 1), (14, 0), (15, 1), (15, 2), (16, 0)]);
}

/// Where opening or taking says 8 a value may stand beside it, and nowhere else.
#[test]
fn only_8_has_a_value() {
    let mut random = Random::new(11);
    let mut values = BTreeSet::new();
    for _ in 0..COUNT {
        let mut stores = Stores::default();
        for step in any_history(&mut random) {
            let answer = stores.play(&step).answer;
            assert!(answer.number == 8 || answer.value == 0, "{step:?} {answer:?}");
            values.insert(answer.value);
        }
    }
    assert!([1, 64, 255, 1024].iter().all(|value| values.contains(value)));
}

/// Pages with every filling of the spares are taken, as new and once more, and
/// those with a spare too wide are not.
#[test]
fn histories_reach_pages_that_differ_in_spares() {
    let mut random = Random::new(9);
    let mut taken = BTreeSet::new();
    let mut refused = BTreeSet::new();
    for _ in 0..COUNT {
        let mut stores = Stores::default();
        for step in any_history(&mut random) {
            let Answer { number, place, mark, .. } = stores.play(&step).answer;
            let Step::Take { record, .. } = step else {
                continue;
            };
            if number == 0 {
                taken.insert((mark, record.spares.map(|spare| spare != 0)));
            } else if number == 8 {
                refused.insert(place);
            }
        }
    }
    let fillings = [[false, false], [false, true], [true, false], [true, true]];
    let all = [1, 2, 3].map(|answer| fillings.map(|filling| (answer, filling)));
    assert_eq!(taken, BTreeSet::from_iter(all.concat()));
    assert!([43, 163, 199, 213].iter().all(|place| refused.contains(place)), "{refused:?}");
}

#[test]
fn spoiled_pages_reach_every_way_to_be_refused() {
    let mut random = Random::new(10);
    let mut seen = BTreeSet::new();
    for _ in 0..COUNT {
        let Bulletin { name, texts, .. } = any_bulletin(&mut random);
        let page = spoiled_page(&mut random, &name, &texts);
        let refusal = write(&page, &mut [0; 32]).expect_err("the page is spoiled");
        seen.insert((refusal.number, refusal.place));
    }
    assert_eq!(seen, BTreeSet::from([(3, 0), (8, 43), (8, 213), (8, 220), (11, 0)]));
}

/// Damage reaches every page and every value of the name.
#[test]
fn damage_reaches_every_part_of_a_store() {
    let mut random = Random::new(7);
    let mut names = BTreeSet::new();
    let mut pages = BTreeSet::new();
    for _ in 0..COUNT {
        let bulletin = any_bulletin(&mut random);
        let before = sound_store(&mut random, &bulletin);
        let after = Store::of_bytes(&damaged_store(&mut random, &before));
        let both = before.name.to_bytes().into_iter().zip(after.name.to_bytes());
        names.extend((0..8).zip(both).filter(|(_, (old, new))| old != new).map(|one| one.0));
        pages.extend((0..PAGES).filter(|&page| before.pages[page] != after.pages[page]));
    }
    assert_eq!((names.len(), pages.len()), (8, PAGES));
}
