//! Histories of several stores as lists of steps, and what has to be told of
//! an implementation so that it can be compared step by step. An
//! implementation may know nothing but bytes.

mod histories;
mod stores;

pub use histories::Histories;
pub use stores::Stores;

use crate::answer::Answer;
use crate::record::Record;
use crate::store::{Name, StoreBytes};

/// How many stores a history has, numbered from 0. Each is of zeros before its
/// first step.
pub const STORES: usize = 4;

#[derive(Clone, PartialEq, Eq, Debug)]
pub enum Step {
    Open {
        store: usize,
        name: Name,
    },
    Take {
        store: usize,
        record: Record,
    },
    Merge {
        store: usize,
        other: usize,
    },
    Report {
        store: usize,
    },
    Text {
        store: usize,
        length: usize,
    },
    /// A store from elsewhere, sound or not, is put in place.
    Put {
        store: usize,
        bytes: Box<StoreBytes>,
    },
}

impl Step {
    /// The store that the step is about.
    pub fn store(&self) -> usize {
        match *self {
            Step::Open { store, .. }
            | Step::Take { store, .. }
            | Step::Merge { store, .. }
            | Step::Report { store }
            | Step::Text { store, .. }
            | Step::Put { store, .. } => store,
        }
    }
}

/// What a step answers, and the buffer that was lent to it, if any.
#[derive(Clone, PartialEq, Eq, Debug)]
pub struct Outcome {
    pub answer: Answer,
    pub lent: Vec<u8>,
}

/// An implementation with its stores. What is refused changes none of them:
/// the zeros of a refused opening are a store that is put nowhere.
pub trait Player {
    fn open(&mut self, store: usize, name: &Name) -> Answer;
    fn take(&mut self, store: usize, record: &Record) -> Answer;
    fn merge(&mut self, store: usize, other: usize) -> Answer;
    fn report(&mut self, store: usize) -> Answer;
    fn text(&mut self, store: usize, buffer: &mut [u8]) -> Answer;
    fn bytes(&self, store: usize) -> StoreBytes;
    fn put(&mut self, store: usize, bytes: &StoreBytes);

    fn play(&mut self, step: &Step) -> Outcome {
        let mut lent = match *step {
            Step::Text { length, .. } => pattern(length),
            _ => Vec::new(),
        };
        let answer = match step {
            Step::Open { store, name } => self.open(*store, name),
            Step::Take { store, record } => self.take(*store, record),
            Step::Merge { store, other } => self.merge(*store, *other),
            Step::Report { store } => self.report(*store),
            Step::Text { store, .. } => self.text(*store, &mut lent),
            Step::Put { store, bytes } => {
                self.put(*store, bytes);
                Answer::FINE
            }
        };
        Outcome { answer, lent }
    }
}

/// What a buffer holds before a call. It differs from place to place, so that
/// no byte can be written unseen.
pub fn pattern(length: usize) -> Vec<u8> {
    (0..length).map(|place| 0xA5 ^ place as u8).collect()
}
