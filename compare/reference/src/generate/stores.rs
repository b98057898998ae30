//! Stores from elsewhere: sound ones, and sound ones whose bytes were damaged.

use super::{bad_name, Bulletin};
use crate::random::Random;
use crate::store::{
    place_of_page, Name, Page, Store, StoreBytes, ABSENT, DISPUTED, HELD, PAGES, PAGE_LENGTH,
    STORE_BYTES,
};

/// A sound store, or its bytes damaged, half of the time each.
pub fn any_store(random: &mut Random, bulletin: &Bulletin) -> StoreBytes {
    let store = sound_store(random, bulletin);
    if random.one_in(2) {
        damaged_store(random, &store)
    } else {
        store.to_bytes()
    }
}

/// A sound store, as often complete as with pages of all kinds.
pub fn sound_store(random: &mut Random, bulletin: &Bulletin) -> Store {
    let mut store = Store { name: bulletin.name, ..Store::ZEROS };
    let states: &[u8] = random.pick(&[&[HELD], &[ABSENT, HELD, HELD, DISPUTED]]);
    for page in store.pages.iter_mut().take(usize::from(bulletin.name.total)) {
        *page = page_of_state(random.pick(states), random.pick(&bulletin.texts));
    }
    if random.one_in(4) {
        let page = random.below(usize::from(bulletin.name.total));
        store.pages[page] = page_of_state(random.pick(&[ABSENT, DISPUTED]), [0; PAGE_LENGTH]);
    }
    store
}

fn page_of_state(mark: u8, text: [u8; PAGE_LENGTH]) -> Page {
    Page { mark, text: if mark == HELD { text } else { [0; PAGE_LENGTH] } }
}

/// The bytes of a store with something wrong, which now and then happens to
/// be right: a held page may have any bytes.
pub fn damaged_store(random: &mut Random, store: &Store) -> StoreBytes {
    let mut bytes = store.to_bytes();
    match random.below(7) {
        0 => wild_mark(random, &mut bytes),
        1 => other_mark(random, &mut bytes, store.name.total),
        2 => byte_in_page(random, &mut bytes, store.name.total),
        3 => page_past_total(random, &mut bytes, &store.name),
        4 => rename(&mut bytes, &bad_name(random, &store.name)),
        5 => rename(&mut bytes, &Name { total: random.bits(6) as u8, ..store.name }),
        _ => bytes[random.below(STORE_BYTES)] = random.byte(),
    }
    bytes
}

/// A mark that is none of the three, on any of the 63 pages.
fn wild_mark(random: &mut Random, bytes: &mut StoreBytes) {
    let wild = random.between(3, 255) as u8;
    bytes[place_of_page(random.below(PAGES))] = random.pick(&[3, 255, wild]);
}

/// Another state on a page, whose bytes stay as they were.
fn other_mark(random: &mut Random, bytes: &mut StoreBytes, total: u8) {
    let page = random.below(usize::from(total));
    bytes[place_of_page(page)] = random.pick(&[ABSENT, HELD, DISPUTED]);
}

/// A byte in a page, in whatever state it is.
fn byte_in_page(random: &mut Random, bytes: &mut StoreBytes, total: u8) {
    let page = random.below(usize::from(total));
    let byte = place_of_page(page) + 1 + random.below(PAGE_LENGTH);
    bytes[byte] = 1 << random.below(8);
}

/// A state or a byte on a page behind the total, the next or any other; with
/// 63 pages none is left, and the last page is taken.
fn page_past_total(random: &mut Random, bytes: &mut StoreBytes, name: &Name) {
    let first = usize::from(name.total).min(PAGES - 1);
    let any = first + random.below(PAGES - first);
    let place = place_of_page(random.pick(&[first, any]));
    match random.below(3) {
        0 => bytes[place] = HELD,
        1 => bytes[place] = DISPUTED,
        _ => bytes[place + 1 + random.below(PAGE_LENGTH)] = 1,
    }
}

fn rename(bytes: &mut StoreBytes, name: &Name) {
    let name = name.to_bytes();
    bytes[..name.len()].copy_from_slice(&name);
}
