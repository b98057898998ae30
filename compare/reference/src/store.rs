//! The page store of a Nankai bulletin, after the sentences of document 01.

mod bytes;

pub use bytes::*;

use crate::record::{Body, Record, Refusal, PREAMBLES};
use crate::write::write;

pub const PAGES: usize = 63;
pub const PAGE_LENGTH: usize = 18;

/// The states of a page. A store from elsewhere may have other marks; it is
/// not sound.
pub const ABSENT: u8 = 0;
pub const HELD: u8 = 1;
pub const DISPUTED: u8 = 2;

/// "A store is opened for one bulletin, named by Rc, issue time, It, Is and
/// page total." Is is the serial here, as in a record.
#[derive(Clone, Copy, PartialEq, Eq, Debug, Default)]
pub struct Name {
    pub rc: u8,
    pub month: u8,
    pub day: u8,
    pub hour: u8,
    pub minute: u8,
    pub it: u8,
    pub serial: u8,
    pub total: u8,
}

#[derive(Clone, Copy, PartialEq, Eq, Debug, Default)]
pub struct Page {
    pub mark: u8,
    pub text: [u8; PAGE_LENGTH],
}

#[derive(Clone, Copy, PartialEq, Eq, Debug)]
pub struct Store {
    pub name: Name,
    pub pages: [Page; PAGES],
}

/// What taking a page answers.
#[derive(Clone, Copy, PartialEq, Eq, Debug)]
pub enum Taken {
    New,
    Same,
    Disputed,
}

/// How many pages are held, how many are disputed, and the lowest page that
/// is not held, 0 if there is none.
#[derive(Clone, Copy, PartialEq, Eq, Debug, Default)]
pub struct Report {
    pub held: u8,
    pub disputed: u8,
    pub lowest: u8,
}

impl Name {
    /// The bulletin of a Nankai record.
    pub fn of_record(record: &Record) -> Option<Name> {
        let Body::Nankai { serial, total, .. } = record.body else {
            return None;
        };
        let &Record { rc, month, day, hour, minute, it, .. } = record;
        Some(Name { rc, month, day, hour, minute, it, serial, total })
    }

    /// The record of a page of this bulletin, with the first preamble and
    /// nothing in Reserved and in the spares.
    pub fn page(&self, page: u8, text: [u8; PAGE_LENGTH]) -> Record {
        let &Name { rc, month, day, hour, minute, it, serial, total } = self;
        let body = Body::Nankai { serial, page, total };
        let preamble = PREAMBLES[0];
        Record { preamble, rc, month, day, hour, minute, it, body, text, ..Record::default() }
    }

    /// The first value out of range in frame order, and the bit where it begins.
    fn first_bad_value(&self) -> Option<(usize, u8)> {
        let values = [
            (14, self.rc, self.rc == 2 || self.rc == 7),
            (21, self.month, (1..=12).contains(&self.month)),
            (25, self.day, (1..=31).contains(&self.day)),
            (30, self.hour, self.hour <= 23),
            (35, self.minute, self.minute <= 59),
            (41, self.it, self.it == 0 || self.it == 2),
            (53, self.serial, (1..=15).contains(&self.serial)),
            (207, self.total, (1..=63).contains(&self.total)),
        ];
        values.iter().find(|(.., in_range)| !in_range).map(|&(bit, value, _)| (bit, value))
    }
}

impl Page {
    fn is_blank(&self) -> bool {
        self.text == [0; PAGE_LENGTH]
    }
}

impl Store {
    /// What a refused opening gives.
    pub const ZEROS: Store = Store {
        name: Name { rc: 0, month: 0, day: 0, hour: 0, minute: 0, it: 0, serial: 0, total: 0 },
        pages: [Page { mark: 0, text: [0; PAGE_LENGTH] }; PAGES],
    };

    /// The answer, and the store with no page, or of zeros where the name is
    /// refused.
    pub fn open(name: Name) -> (Result<(), Refusal>, Store) {
        match name.first_bad_value() {
            Some((bit, value)) => (Err(Refusal::out_of_range(bit, value.into())), Store::ZEROS),
            None => (Ok(()), Store { name, ..Store::ZEROS }),
        }
    }

    /// "A store is sound when its name is in range, each page's state is one
    /// of the three, absent and disputed pages hold zero bytes, and pages past
    /// the total are absent."
    pub fn is_sound(&self) -> bool {
        let states = [ABSENT, HELD, DISPUTED];
        let mut past_total = self.pages.iter().skip(usize::from(self.name.total));
        self.name.first_bad_value().is_none()
            && self.pages.iter().all(|page| states.contains(&page.mark))
            && self.pages.iter().all(|page| page.mark == HELD || page.is_blank())
            && past_total.all(|page| page.mark == ABSENT)
    }

    /// Takes the page of a record: 14, then what writing the record would
    /// refuse, 12, 13. A refused taking leaves the store as it was. Preamble,
    /// Reserved and spares play no part.
    pub fn take(&mut self, record: &Record) -> Result<Taken, Refusal> {
        self.sound()?;
        write(record, &mut [0; 32])?;
        let Body::Nankai { page: number, .. } = record.body else {
            return Err(Refusal::plain(12));
        };
        if Name::of_record(record) != Some(self.name) {
            return Err(Refusal::plain(13));
        }
        let page = &mut self.pages[usize::from(number) - 1];
        let taken = match page.mark {
            ABSENT => Taken::New,
            HELD if page.text == record.text => Taken::Same,
            _ => Taken::Disputed,
        };
        *page = match taken {
            Taken::New | Taken::Same => Page { mark: HELD, text: record.text },
            Taken::Disputed => Page { mark: DISPUTED, text: [0; PAGE_LENGTH] },
        };
        Ok(taken)
    }

    /// Merges another store into this one: 14 where either is not sound, 13
    /// where they have different bulletins. A refused merge leaves this one as
    /// it was.
    pub fn merge(&mut self, other: &Store) -> Result<(), Refusal> {
        self.sound()?;
        other.sound()?;
        if self.name != other.name {
            return Err(Refusal::plain(13));
        }
        for (page, theirs) in self.pages.iter_mut().zip(&other.pages) {
            *page = merged(page, theirs);
        }
        Ok(())
    }

    /// The answer and the report, which is zeros where the store is refused.
    pub fn report(&self) -> (Result<(), Refusal>, Report) {
        match self.sound() {
            Ok(()) => (Ok(()), self.counted()),
            refused => (refused, Report::default()),
        }
    }

    /// Writes the text to a lent buffer and gives its length: 14, 15, 16. The
    /// bytes behind the text, and all of them where it is refused, stay.
    pub fn text(&self, buffer: &mut [u8]) -> Result<usize, Refusal> {
        self.sound()?;
        let lowest = self.counted().lowest;
        if lowest != 0 {
            // A mark of 0 would be no mark, so 1 stands for absent here.
            let absent = self.pages[usize::from(lowest) - 1].mark == ABSENT;
            let mark = if absent { 1 } else { 2 };
            return Err(Refusal { number: 15, page: lowest, mark, ..Refusal::default() });
        }
        let mut text: Vec<u8> = self.own_pages().iter().flat_map(|page| page.text).collect();
        while text.last() == Some(&0) {
            text.pop();
        }
        let lent = buffer.get_mut(..text.len()).ok_or(Refusal::plain(16))?;
        lent.copy_from_slice(&text);
        Ok(text.len())
    }

    fn sound(&self) -> Result<(), Refusal> {
        if self.is_sound() {
            Ok(())
        } else {
            Err(Refusal::plain(14))
        }
    }

    /// The pages from 1 to the total.
    fn own_pages(&self) -> &[Page] {
        &self.pages[..usize::from(self.name.total)]
    }

    fn counted(&self) -> Report {
        let mut report = Report::default();
        for (number, page) in (1..).zip(self.own_pages()) {
            match page.mark {
                HELD => report.held += 1,
                DISPUTED => report.disputed += 1,
                _ => {}
            }
            if page.mark != HELD && report.lowest == 0 {
                report.lowest = number;
            }
        }
        report
    }
}

/// "Absent with anything gives the other; held with held of the same bytes
/// stays held; all else is disputed."
fn merged(one: &Page, other: &Page) -> Page {
    if one.mark == ABSENT {
        *other
    } else if other.mark == ABSENT || (one.mark == HELD && one == other) {
        *one
    } else {
        Page { mark: DISPUTED, text: [0; PAGE_LENGTH] }
    }
}
