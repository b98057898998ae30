//! Short words for tests.

use reference::record::Refusal;
use reference::store::{Name, Store, Taken};

pub const NAME: Name =
    Name { rc: 7, month: 3, day: 11, hour: 4, minute: 35, it: 0, serial: 5, total: 3 };

pub const SPRING: [u8; 18] = *b"cherries in bloom.";
pub const SUMMER: [u8; 18] = *b"plums are ripe now";

/// The store of `NAME` that has taken these pages one after another.
pub fn store_of(pages: &[(u8, [u8; 18])]) -> Store {
    let mut store = opened(NAME);
    for &(page, text) in pages {
        take(&mut store, page, text);
    }
    store
}

pub fn opened(name: Name) -> Store {
    let (answer, store) = Store::open(name);
    assert_eq!(answer, Ok(()));
    store
}

/// Takes a page of the store's own bulletin, which must not be refused.
pub fn take(store: &mut Store, page: u8, text: [u8; 18]) -> Taken {
    let name = store.name;
    store.take(&name.page(page, text)).expect("a sound store takes every valid page")
}

pub fn merged(one: &Store, other: &Store) -> Store {
    let mut store = *one;
    assert_eq!(store.merge(other), Ok(()));
    store
}

/// The text of a store whose pages are all held.
pub fn text(store: &Store) -> Vec<u8> {
    let mut buffer = [0xA5; 1134];
    let length = store.text(&mut buffer).expect("all pages are held");
    assert!(buffer[length..].iter().all(|&byte| byte == 0xA5));
    buffer[..length].to_vec()
}

/// 8 at a bit, with the value that was found there.
pub fn out_of_range<T>(place: u8, value: u64) -> Result<T, Refusal> {
    Err(Refusal { number: 8, place, page: 0, mark: 0, value })
}

pub fn refused<T>(number: u8) -> Result<T, Refusal> {
    Err(Refusal::plain(number))
}
