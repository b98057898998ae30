//! The same stores by what was taken. A store is sound when a history gives
//! it; of one that is not, only the bytes are known.

use super::stores::{counts_of, number_of, told};
use super::{Player, STORES};
use crate::answer::Answer;
use crate::history::History;
use crate::record::{Record, Refusal};
use crate::store::{Name, Store, StoreBytes};

#[derive(Clone)]
enum Kept {
    Sound(History),
    Unsound(Box<StoreBytes>),
}

impl Kept {
    fn of_bytes(bytes: &StoreBytes) -> Kept {
        match History::behind(&Store::of_bytes(bytes)) {
            Some(history) => Kept::Sound(history),
            None => Kept::Unsound(Box::new(*bytes)),
        }
    }

    fn history(&mut self) -> Result<&mut History, Refusal> {
        match self {
            Kept::Sound(history) => Ok(history),
            Kept::Unsound(_) => Err(Refusal::plain(14)),
        }
    }
}

pub struct Histories([Kept; STORES]);

impl Default for Histories {
    fn default() -> Histories {
        Histories(std::array::from_fn(|_| Kept::of_bytes(&Store::ZEROS.to_bytes())))
    }
}

impl Histories {
    fn try_merge(&mut self, store: usize, other: usize) -> Result<(), Refusal> {
        let mut other = self.0[other].clone();
        self.0[store].history()?.merge(other.history()?)
    }

    fn try_text(&mut self, store: usize, buffer: &mut [u8]) -> Result<usize, Refusal> {
        let text = self.0[store].history()?.text()?;
        if buffer.len() < text.len() {
            return Err(Refusal::plain(16));
        }
        buffer[..text.len()].copy_from_slice(&text);
        Ok(text.len())
    }
}

impl Player for Histories {
    fn open(&mut self, store: usize, name: &Name) -> Answer {
        let opened = History::open(*name).map(|history| self.0[store] = Kept::Sound(history));
        told(opened, |()| 0)
    }

    fn take(&mut self, store: usize, record: &Record) -> Answer {
        told(self.0[store].history().and_then(|history| history.take(record)), number_of)
    }

    fn merge(&mut self, store: usize, other: usize) -> Answer {
        told(self.try_merge(store, other), |()| 0)
    }

    fn report(&mut self, store: usize) -> Answer {
        told(self.0[store].history().map(|history| history.report()), |report| counts_of(&report))
    }

    fn text(&mut self, store: usize, buffer: &mut [u8]) -> Answer {
        told(self.try_text(store, buffer), |length| length as u32)
    }

    fn bytes(&self, store: usize) -> StoreBytes {
        match &self.0[store] {
            Kept::Sound(history) => history.store().to_bytes(),
            Kept::Unsound(bytes) => **bytes,
        }
    }

    fn put(&mut self, store: usize, bytes: &StoreBytes) {
        self.0[store] = Kept::of_bytes(bytes);
    }
}
