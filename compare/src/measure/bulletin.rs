//! A bulletin of 63 full pages, and stores that hold pages of it.

use reference::record::Record;
use reference::store::{Name, Store, PAGES, PAGE_LENGTH};
use std::hint::black_box;

pub const TEXT_MOST: usize = PAGES * PAGE_LENGTH;

pub const NAME: Name =
    Name { rc: 2, month: 3, day: 10, hour: 7, minute: 30, it: 0, serial: 1, total: 63 };

pub fn pages() -> Vec<Record> {
    (1..=NAME.total).map(|page| NAME.page(page, [0x40 + page; PAGE_LENGTH])).collect()
}

pub fn opened() -> Store {
    let (answer, store) = Store::open(NAME);
    answer.expect("the name is in range");
    store
}

/// A store that has taken these pages.
pub fn holding(pages: &[Record]) -> Store {
    let mut store = opened();
    for page in pages {
        black_box(&mut store).take(black_box(page)).expect("it is a page of the bulletin");
    }
    store
}

/// A store of the odd pages, and one of the others.
pub fn halves(pages: &[Record]) -> [Store; 2] {
    [0, 1].map(|first| {
        holding(&pages.iter().copied().skip(first).step_by(2).collect::<Vec<Record>>())
    })
}
