//! A store as 1205 bytes: its name in 8, then for each of the 63 pages its
//! mark and its 18 bytes.

use super::{Name, Page, Store, PAGES, PAGE_LENGTH};

pub const NAME_BYTES: usize = 8;
pub const PAGE_BYTES: usize = 1 + PAGE_LENGTH;
pub const STORE_BYTES: usize = NAME_BYTES + PAGES * PAGE_BYTES;

pub type StoreBytes = [u8; STORE_BYTES];

impl Name {
    pub fn to_bytes(self) -> [u8; NAME_BYTES] {
        let Name { rc, month, day, hour, minute, it, serial, total } = self;
        [rc, month, day, hour, minute, it, serial, total]
    }

    pub fn of_bytes(bytes: [u8; NAME_BYTES]) -> Name {
        let [rc, month, day, hour, minute, it, serial, total] = bytes;
        Name { rc, month, day, hour, minute, it, serial, total }
    }
}

impl Store {
    pub fn to_bytes(&self) -> StoreBytes {
        let mut bytes = [0; STORE_BYTES];
        bytes[..NAME_BYTES].copy_from_slice(&self.name.to_bytes());
        for (number, page) in self.pages.iter().enumerate() {
            let place = place_of_page(number);
            bytes[place] = page.mark;
            bytes[place + 1..place + PAGE_BYTES].copy_from_slice(&page.text);
        }
        bytes
    }

    /// The store of any bytes, sound or not.
    pub fn of_bytes(bytes: &StoreBytes) -> Store {
        let name = std::array::from_fn(|number| bytes[number]);
        let page = |number| {
            let place = place_of_page(number);
            let text = std::array::from_fn(|character| bytes[place + 1 + character]);
            Page { mark: bytes[place], text }
        };
        Store { name: Name::of_bytes(name), pages: std::array::from_fn(page) }
    }
}

/// Where a page begins, pages counted from 0.
pub fn place_of_page(number: usize) -> usize {
    NAME_BYTES + PAGE_BYTES * number
}
