//! A second account of the page store, by what was taken and not by states: a
//! history keeps every text that ever came for a page. What a store has to be
//! then follows from the sets of texts, and merging is their union.

use crate::record::{Body, Record, Refusal};
use crate::store::{Name, Page, Report, Store, Taken, DISPUTED, HELD, PAGE_LENGTH};
use crate::write::write;
use std::collections::{BTreeMap, BTreeSet};

type Text = [u8; PAGE_LENGTH];

#[derive(Clone, PartialEq, Eq, Debug)]
pub struct History {
    name: Name,
    /// The texts of each page that came, by page number.
    texts: BTreeMap<u8, BTreeSet<Text>>,
}

impl History {
    /// The history without any page. A name is in range when a first page can
    /// be written under it, and else refused as that page is.
    pub fn open(name: Name) -> Result<History, Refusal> {
        write(&name.page(1, [0; PAGE_LENGTH]), &mut [0; 32])?;
        Ok(History { name, texts: BTreeMap::new() })
    }

    /// A history that gives this store, or nothing where none does. Where two
    /// texts met, any two will do.
    pub fn behind(store: &Store) -> Option<History> {
        let mut history = History::open(store.name).ok()?;
        for (number, page) in (1..=store.name.total).zip(&store.pages) {
            match page.mark {
                HELD => history.note(number, &[page.text]),
                DISPUTED => history.note(number, &[[0; PAGE_LENGTH], [1; PAGE_LENGTH]]),
                _ => {}
            }
        }
        (history.store() == *store).then_some(history)
    }

    /// Takes a record where it is a page of this bulletin, whatever its
    /// preamble, Reserved and spares.
    pub fn take(&mut self, record: &Record) -> Result<Taken, Refusal> {
        write(record, &mut [0; 32])?;
        let Body::Nankai { page, .. } = record.body else {
            return Err(Refusal::plain(12));
        };
        let &Record { preamble, reserved, spares, text, .. } = record;
        if *record != (Record { preamble, reserved, spares, ..self.name.page(page, text) }) {
            return Err(Refusal::plain(13));
        }
        let before = self.texts(page);
        self.note(page, &[text]);
        Ok(match before.len() {
            0 => Taken::New,
            1 if before.contains(&text) => Taken::Same,
            _ => Taken::Disputed,
        })
    }

    /// Takes all that the other history has taken.
    pub fn merge(&mut self, other: &History) -> Result<(), Refusal> {
        if self.name != other.name {
            return Err(Refusal::plain(13));
        }
        for (&page, texts) in &other.texts {
            self.texts.entry(page).or_default().extend(texts);
        }
        Ok(())
    }

    /// The store that has taken the same.
    pub fn store(&self) -> Store {
        let mut store = Store { name: self.name, ..Store::ZEROS };
        for (&page, texts) in &self.texts {
            let mut texts = texts.iter();
            let only = texts.next().filter(|_| texts.next().is_none());
            let disputed = Page { mark: DISPUTED, text: [0; PAGE_LENGTH] };
            store.pages[usize::from(page) - 1] =
                only.map_or(disputed, |&text| Page { mark: HELD, text });
        }
        store
    }

    pub fn report(&self) -> Report {
        let with = |test: fn(usize) -> bool| {
            (1..=self.name.total).filter(move |&page| test(self.texts(page).len()))
        };
        Report {
            held: with(|texts| texts == 1).count() as u8,
            disputed: with(|texts| texts > 1).count() as u8,
            lowest: with(|texts| texts != 1).min().unwrap_or(0),
        }
    }

    /// The text without the zeros at its end, or 15.
    pub fn text(&self) -> Result<Vec<u8>, Refusal> {
        let mut text = Vec::new();
        for page in 1..=self.name.total {
            let texts = self.texts(page);
            if texts.len() != 1 {
                let mark = if texts.is_empty() { 1 } else { 2 };
                return Err(Refusal { number: 15, page, mark, ..Refusal::default() });
            }
            text.extend(texts.into_iter().flatten());
        }
        let length = text.iter().rposition(|&byte| byte != 0).map_or(0, |last| last + 1);
        text.truncate(length);
        Ok(text)
    }

    fn texts(&self, page: u8) -> BTreeSet<Text> {
        self.texts.get(&page).cloned().unwrap_or_default()
    }

    fn note(&mut self, page: u8, texts: &[Text]) {
        self.texts.entry(page).or_default().extend(texts);
    }
}
