//! The page store on its 1205 bytes, where they are.

use super::record_bytes::{RecordBytes, CATEGORY, TEXT};
use super::{told, writable};
use crate::answer::Answer;
use crate::record::Refusal;
use crate::store::{
    place_of_page, StoreBytes, ABSENT, DISPUTED, HELD, NAME_BYTES, PAGE_BYTES, PAGE_LENGTH,
    STORE_BYTES,
};

type Name = [u8; NAME_BYTES];
type Page = [u8; PAGE_BYTES];
type Text = [u8; PAGE_LENGTH];

/// Where the total stands in a name, and the number of a page in a record.
const TOTAL: usize = 7;
const PAGE_NUMBER: usize = 12;

const NEW: u32 = 1;
const SAME: u32 = 2;
const NOW_DISPUTED: u32 = 3;

const WITHOUT_TEXT: Text = [0; PAGE_LENGTH];

const DISPUTED_PAGE: Page = {
    let mut page = [0; PAGE_BYTES];
    page[0] = DISPUTED;
    page
};

/// Opens a store for a name, or leaves it where the name is refused.
pub fn open(name: &Name, store: &mut StoreBytes) -> Answer {
    told(in_range(name).map(|()| {
        store.fill(0);
        store[..NAME_BYTES].copy_from_slice(name);
    }))
}

/// Takes the page of a record into a store, or leaves the store where it is
/// refused. The mark of the answer is 1 for new, 2 for same and 3 for disputed.
pub fn take(store: &mut StoreBytes, record: &RecordBytes) -> Answer {
    told_word(page_taken(store, record))
}

/// Merges another store into one, which stays where that is refused.
pub fn merge(store: &mut StoreBytes, other: &StoreBytes) -> Answer {
    told(merged(store, other))
}

/// How many pages are held, how many disputed, and the lowest that is not held.
pub fn report(store: &StoreBytes) -> Answer {
    let counted = sound(store).map(|()| {
        let pages = own_pages(store);
        let with = |state| pages.iter().filter(|page| page[0] == state).count() as u32;
        let lowest = lowest_not_held(pages).map_or(0, |index| index as u32 + 1);
        with(HELD) << 16 | with(DISPUTED) << 8 | lowest
    });
    told_word(counted)
}

/// Puts the text to the front of the buffer. Page and mark of the answer are the
/// two bytes of its length.
pub fn text(store: &StoreBytes, buffer: &mut [u8]) -> Answer {
    told_word(text_put(store, buffer))
}

fn told_word(seen: Result<u32, Refusal>) -> Answer {
    seen.map_or_else(Answer::from, Answer::of_word)
}

fn page_taken(store: &mut StoreBytes, record: &RecordBytes) -> Result<u32, Refusal> {
    sound(store)?;
    writable(record)?;
    if record[CATEGORY] != 4 {
        return Err(Refusal::plain(12));
    }
    if *name(store) != name_of(record) {
        return Err(Refusal::plain(13));
    }
    let index = usize::from(record[PAGE_NUMBER]) - 1;
    let page = &mut pages_mut(store)[index];
    let text = &record[TEXT..];
    Ok(match page[0] {
        ABSENT => {
            page[0] = HELD;
            page[1..].copy_from_slice(text);
            NEW
        }
        HELD if page[1..] == *text => SAME,
        _ => {
            *page = DISPUTED_PAGE;
            NOW_DISPUTED
        }
    })
}

fn merged(store: &mut StoreBytes, other: &StoreBytes) -> Result<(), Refusal> {
    sound(store)?;
    sound(other)?;
    if name(store) != name(other) {
        return Err(Refusal::plain(13));
    }
    // Pages past the total are absent in both and stay so.
    for (page, theirs) in pages_mut(store).iter_mut().zip(own_pages(other)) {
        if page[0] == ABSENT {
            *page = *theirs;
        } else if theirs[0] != ABSENT && page != theirs {
            // Where they are the same, both are held or both are disputed already.
            *page = DISPUTED_PAGE;
        }
    }
    Ok(())
}

fn text_put(store: &StoreBytes, buffer: &mut [u8]) -> Result<u32, Refusal> {
    sound(store)?;
    let pages = own_pages(store);
    if let Some(index) = lowest_not_held(pages) {
        // A mark of 0 would be no mark, so 1 stands for absent here.
        let mark = if pages[index][0] == ABSENT { 1 } else { 2 };
        return Err(Refusal { number: 15, page: index as u8 + 1, mark, ..Refusal::default() });
    }
    let length = text_length(pages);
    let lent = buffer.get_mut(..length).ok_or(Refusal::plain(16))?;
    let (whole, rest) = lent.as_chunks_mut::<PAGE_LENGTH>();
    for (text, page) in whole.iter_mut().zip(pages) {
        text.copy_from_slice(&page[1..]);
    }
    if !rest.is_empty() {
        rest.copy_from_slice(&pages[whole.len()][1..=rest.len()]);
    }
    Ok(length as u32)
}

/// How many bytes the texts have without the zeros at their end.
fn text_length(pages: &[Page]) -> usize {
    let with_text = pages.iter().rposition(|page| page[1..] != WITHOUT_TEXT);
    let last = with_text.map_or(&[][..], |index| &pages[index][1..]);
    let characters = last.iter().rposition(|&byte| byte != 0).map_or(0, |last| last + 1);
    with_text.unwrap_or(0) * PAGE_LENGTH + characters
}

fn lowest_not_held(pages: &[Page]) -> Option<usize> {
    pages.iter().position(|page| page[0] != HELD)
}

fn sound(store: &StoreBytes) -> Result<(), Refusal> {
    let blank_or_held =
        |page: &Page| page[0] == HELD || (page[0] <= DISPUTED && page[1..] == WITHOUT_TEXT);
    let is_sound = in_range(name(store)).is_ok()
        && own_pages(store).iter().all(blank_or_held)
        && past_total(store).iter().fold(0, |ones, byte| ones | byte) == 0;
    if is_sound {
        Ok(())
    } else {
        Err(Refusal::plain(14))
    }
}

/// The bytes of the pages that the bulletin does not have.
fn past_total(store: &StoreBytes) -> &[u8] {
    &store[place_of_page(store[TOTAL].into()).min(STORE_BYTES)..]
}

/// The pages from 1 to the total.
fn own_pages(store: &StoreBytes) -> &[Page] {
    let (pages, _) = store[NAME_BYTES..].as_chunks();
    &pages[..pages.len().min(store[TOTAL].into())]
}

fn pages_mut(store: &mut StoreBytes) -> &mut [Page] {
    store[NAME_BYTES..].as_chunks_mut().0
}

fn name(store: &StoreBytes) -> &Name {
    store.first_chunk().expect("a store begins with a name")
}

/// The bulletin of a record of category 4.
fn name_of(record: &RecordBytes) -> Name {
    let [_, _, _, rc, month, day, hour, minute, it, _, _, serial, _, total, ..] = *record;
    [rc, month, day, hour, minute, it, serial, total]
}

/// The first value of a name that is out of its range, as in a frame.
fn in_range(name: &Name) -> Result<(), Refusal> {
    let &[rc, month, day, hour, minute, it, serial, total] = name;
    let (bit, value) = if !matches!(rc, 2 | 7) {
        (14, rc)
    } else if !matches!(month, 1..=12) {
        (21, month)
    } else if !matches!(day, 1..=31) {
        (25, day)
    } else if hour > 23 {
        (30, hour)
    } else if minute > 59 {
        (35, minute)
    } else if !matches!(it, 0 | 2) {
        (41, it)
    } else if !matches!(serial, 1..=15) {
        (53, serial)
    } else if !matches!(total, 1..=63) {
        (207, total)
    } else {
        return Ok(());
    };
    Err(Refusal::out_of_range(bit, value.into()))
}
