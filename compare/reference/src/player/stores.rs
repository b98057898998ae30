//! The stores of the reference, by states.

use super::{Player, STORES};
use crate::answer::Answer;
use crate::record::{Record, Refusal};
use crate::store::{Name, Report, Store, StoreBytes, Taken};

pub struct Stores([Store; STORES]);

impl Default for Stores {
    fn default() -> Stores {
        Stores([Store::ZEROS; STORES])
    }
}

impl Player for Stores {
    fn open(&mut self, store: usize, name: &Name) -> Answer {
        let (answer, opened) = Store::open(*name);
        if answer.is_ok() {
            self.0[store] = opened;
        }
        told(answer, |()| 0)
    }

    fn take(&mut self, store: usize, record: &Record) -> Answer {
        told(self.0[store].take(record), number_of)
    }

    fn merge(&mut self, store: usize, other: usize) -> Answer {
        let other = self.0[other];
        told(self.0[store].merge(&other), |()| 0)
    }

    fn report(&mut self, store: usize) -> Answer {
        let (answer, report) = self.0[store].report();
        told(answer, |()| counts_of(&report))
    }

    fn text(&mut self, store: usize, buffer: &mut [u8]) -> Answer {
        told(self.0[store].text(buffer), |length| length as u32)
    }

    fn bytes(&self, store: usize) -> StoreBytes {
        self.0[store].to_bytes()
    }

    fn put(&mut self, store: usize, bytes: &StoreBytes) {
        self.0[store] = Store::of_bytes(bytes);
    }
}

/// The answer of a call that gives a number where it is not refused.
pub(super) fn told<T>(result: Result<T, Refusal>, number: impl Fn(T) -> u32) -> Answer {
    match result {
        Ok(value) => Answer::of_word(number(value)),
        Err(refusal) => refusal.into(),
    }
}

pub(super) fn number_of(taken: Taken) -> u32 {
    match taken {
        Taken::New => 1,
        Taken::Same => 2,
        Taken::Disputed => 3,
    }
}

pub(super) fn counts_of(report: &Report) -> u32 {
    u32::from_be_bytes([0, report.held, report.disputed, report.lowest])
}
