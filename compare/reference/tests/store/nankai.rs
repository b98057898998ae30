//! The bulletin of document 004 in its 27 pages, as receivers get it.

use crate::words::*;
use reference::random::Random;
use reference::read::read;
use reference::record::{Record, Refusal};
use reference::samples;
use reference::store::{Name, Store, Taken};
use reference::write::write;

/// The pages of the first delivery, through the wire.
fn delivery() -> Vec<Record> {
    let through_the_wire = |record: &Record| {
        let mut frame = [0; 32];
        write(record, &mut frame).expect("a sample is valid");
        read(&frame).expect("a frame that was written is read")
    };
    samples::nankai()[..27].iter().map(through_the_wire).collect()
}

fn name() -> Name {
    Name::of_record(&delivery()[0]).expect("it is a Nankai page")
}

fn as_characters(store: &Store) -> String {
    String::from_utf8(text(store)).expect("the whole text is UTF-8")
}

/// What a receiver has heard of the pages, which come round three times in
/// any order, some of them lost.
fn receiver(random: &mut Random, loses: impl Fn(usize) -> bool) -> Store {
    let mut store = opened(name());
    let pages = delivery();
    let mut order: Vec<usize> = (0..81).map(|number| number % 27).collect();
    random.shuffle(&mut order);
    for page in order.into_iter().filter(|&page| !loses(page)) {
        let taken = store.take(&pages[page]);
        assert!(matches!(taken, Ok(Taken::New | Taken::Same)));
    }
    store
}

#[test]
fn two_receivers_with_losses_have_the_whole_text_together() {
    let mut random = Random::new(27);
    for _ in 0..200 {
        let cut = random.below(28);
        let east = receiver(&mut random, |page| page < cut && page % 3 != 0);
        let west = receiver(&mut random, |page| page >= cut || page == 3);
        for store in [merged(&east, &west), merged(&west, &east)] {
            assert_eq!(as_characters(&store), samples::NANKAI_TEXT);
        }
    }
}

#[test]
fn merges_in_any_tree_give_one_store() {
    let mut random = Random::new(28);
    let whole = receiver(&mut random, |_| false);
    for _ in 0..100 {
        let alone = |page: usize| receiver(&mut Random::new(page as u64), |other| other != page);
        let mut stores: Vec<Store> = (0..27).map(alone).collect();
        while stores.len() > 1 {
            let one = stores.swap_remove(random.below(stores.len()));
            let other = random.below(stores.len());
            stores[other] = merged(&stores[other], &one);
        }
        assert_eq!(stores, [whole]);
    }
}

#[test]
fn a_page_lost_by_both_receivers_is_named() {
    let mut random = Random::new(29);
    let east = receiver(&mut random, |page| page == 16 || page == 20);
    let west = receiver(&mut random, |page| page == 16 || page == 2);
    let refusal = merged(&east, &west).text(&mut [0; 1134]).expect_err("page 17 is absent");
    assert_eq!(refusal, Refusal { number: 15, place: 0, page: 17, mark: 1, value: 0 });
}

#[test]
fn a_page_that_came_out_differently_is_never_shown() {
    let mut random = Random::new(30);
    let mut east = receiver(&mut random, |_| false);
    let west = receiver(&mut random, |_| false);
    let mut wrong = delivery()[8];
    wrong.text[17] ^= 1;
    assert_eq!(east.take(&wrong), Ok(Taken::Disputed));
    for store in [east, merged(&east, &west), merged(&west, &east)] {
        let refusal = store.text(&mut [0; 1134]).expect_err("page 9 is disputed");
        assert_eq!(refusal, Refusal { number: 15, place: 0, page: 9, mark: 2, value: 0 });
    }
}

#[test]
fn the_second_delivery_is_another_bulletin() {
    let mut store = opened(name());
    for record in &samples::nankai()[27..] {
        assert_eq!(store.take(record), refused(13));
    }
    assert_eq!(store, opened(name()));
}

/// Each Japanese character has three bytes and 18 is a multiple of three, so
/// document 004 never splits one. One letter in front splits them all.
#[test]
fn a_character_may_cross_from_one_page_into_the_next() {
    let crossing = format!("A{}", samples::NANKAI_TEXT);
    let pages = samples::pages(&crossing);
    assert!(pages[..26].iter().all(|page| std::str::from_utf8(page).is_err()));
    let mut store = opened(Name { total: pages.len() as u8, ..name() });
    for (number, page) in (1..=27).zip(&pages).rev() {
        assert_eq!(take(&mut store, number, *page), Taken::New);
    }
    assert_eq!(as_characters(&store), crossing);
}
