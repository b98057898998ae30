//! The tuned page store, played through the same steps as the others.

use crate::lent::Outcome;
use crate::packed::{packed, Bytes};
use crate::Count;
use reference::answer::Answer;
use reference::player::{Player, STORES};
use reference::record::Record;
use reference::store::{Name, StoreBytes, STORE_BYTES};
use reference::tuned;

pub struct TunedStores([StoreBytes; STORES]);

impl Default for TunedStores {
    fn default() -> TunedStores {
        TunedStores([[0; STORE_BYTES]; STORES])
    }
}

impl Player for TunedStores {
    fn open(&mut self, store: usize, name: &Name) -> Answer {
        tuned::open(&name.to_bytes(), &mut self.0[store])
    }

    fn take(&mut self, store: usize, record: &Record) -> Answer {
        tuned::take(&mut self.0[store], &packed(record))
    }

    fn merge(&mut self, store: usize, other: usize) -> Answer {
        let other = self.0[other];
        tuned::merge(&mut self.0[store], &other)
    }

    fn report(&mut self, store: usize) -> Answer {
        tuned::report(&self.0[store])
    }

    fn text(&mut self, store: usize, buffer: &mut [u8]) -> Answer {
        tuned::text(&self.0[store], buffer)
    }

    fn bytes(&self, store: usize) -> StoreBytes {
        self.0[store]
    }

    fn put(&mut self, store: usize, bytes: &StoreBytes) {
        self.0[store] = *bytes;
    }
}

/// Takes record bytes that no record may have.
pub fn agree_on_taking(count: &mut Count, store: &StoreBytes, record: &Bytes, expected: &Outcome) {
    let mut taken_into = *store;
    let answer = tuned::take(&mut taken_into, record);
    let ours = (answer, taken_into.to_vec());
    count.same_tuned(record, &ours, &(expected.answer, expected.lent.clone()));
}
