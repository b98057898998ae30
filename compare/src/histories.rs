//! Histories of page stores, against the reference: after each step its
//! answer, the buffer that was lent and the whole store.

use crate::calls;
use crate::lent::{only_read, Outcome};
use crate::packed::{kept, packed, Bytes};
use crate::reading::{bytes_of, frame_of};
use crate::spares::note;
use crate::tuned::{agree_on_taking, TunedStores};
use crate::writing::with_stray;
use crate::{door, pattern, values, Count};
use reference::answer::Answer;
use reference::fields;
use reference::generate::{
    any_bulletin, any_history, any_record, any_store, any_taking, bad_name, bulletin_page,
    sent_again, too_wide, Bulletin,
};
use reference::player::{Player, Step, Stores, STORES};
use reference::random::Random;
use reference::record::{Category, Record};
use reference::samples;
use reference::store::{Name, Store, StoreBytes, STORE_BYTES};

const HISTORIES: usize = 200_000;
const PAGES_SENT_AGAIN: usize = 50_000;
const REFUSED_OPENINGS: usize = 50_000;
const STRAY_RECORDS: usize = 50_000;
const DELIVERIES: usize = 500;

/// The proved stores, of which only the bytes are known.
struct Doors([StoreBytes; STORES]);

impl Player for Doors {
    fn open(&mut self, store: usize, name: &Name) -> Answer {
        only_read(&name.to_bytes(), |name| door::open(name, &mut self.0[store]))
    }

    fn take(&mut self, store: usize, record: &Record) -> Answer {
        only_read(&packed(record), |record| door::take(&mut self.0[store], record))
    }

    fn merge(&mut self, store: usize, other: usize) -> Answer {
        let other = self.0[other];
        only_read(&other, |other| door::merge(&mut self.0[store], other))
    }

    fn report(&mut self, store: usize) -> Answer {
        only_read(&self.0[store], door::report)
    }

    fn text(&mut self, store: usize, buffer: &mut [u8]) -> Answer {
        only_read(&self.0[store], |store| door::text(store, buffer))
    }

    fn bytes(&self, store: usize) -> StoreBytes {
        self.0[store]
    }

    fn put(&mut self, store: usize, bytes: &StoreBytes) {
        self.0[store] = *bytes;
    }
}

/// Histories of all kinds: takings, merges in any tree, damaged stores.
pub fn any_histories(count: &mut Count) {
    let mut random = Random::new(73);
    for _ in 0..HISTORIES {
        agree(count, &any_history(&mut random));
    }
}

/// A page, the same with another preamble, Reserved and spares, that one with
/// each spare too wide, and once more.
pub fn spares(count: &mut Count) {
    let mut random = Random::new(77);
    for _ in 0..PAGES_SENT_AGAIN {
        let Bulletin { name, texts, .. } = any_bulletin(&mut random);
        let page = bulletin_page(&mut random, &name, &texts);
        let mut records = vec![page, sent_again(&mut random, &page)];
        for (number, spare) in fields::spares(Category::Nankai).iter().enumerate() {
            let mut wide = sent_again(&mut random, &page);
            wide.spares[number] = too_wide(&mut random, spare.width);
            records.push(wide);
        }
        records.push(sent_again(&mut random, &page));
        let takings = records.into_iter().map(|record| Step::Take { store: 0, record });
        let steps: Vec<Step> = [Step::Open { store: 0, name }].into_iter().chain(takings).collect();
        agree(count, &steps);
    }
}

/// After each step its answer, and the value that was asked for before it.
pub fn agree(count: &mut Count, steps: &[Step]) {
    let mut ours = Doors([[0; STORE_BYTES]; STORES]);
    let mut tuned = TunedStores::default();
    let mut theirs = Stores::default();
    for step in steps.iter().map(kept_step) {
        let store = step.store();
        let input = [&ours.bytes(store)[..], &argument(&ours, &step)].concat();
        let our_outcome = (asked(&ours, &step), ours.play(&step), ours.bytes(store));
        let played = theirs.play(&step);
        let answer = played.answer;
        let tuned_outcome = (tuned.play(&step), tuned.bytes(store));
        count.same_tuned(&input, &tuned_outcome, &(played.clone(), theirs.bytes(store)));
        count.same(&input, &our_outcome, &(answer.value, played, theirs.bytes(store)));
        if let Step::Take { record, .. } = step {
            note(count, &record, answer);
        }
        values::note(count, answer);
    }
}

/// A step with the record that its bytes can hold.
fn kept_step(step: &Step) -> Step {
    match step {
        Step::Take { store, record } => Step::Take { store: *store, record: kept(record) },
        other => other.clone(),
    }
}

/// The value that is told where it is asked for before a step. Only opening and
/// taking have one to tell.
fn asked(stores: &Doors, step: &Step) -> u64 {
    match step {
        Step::Open { name, .. } => only_read(&name.to_bytes(), door::open_value),
        Step::Take { store, record } => calls::take_value(&stores.bytes(*store), &packed(record)),
        _ => 0,
    }
}

/// The bytes that a step hands over beside its store.
fn argument(stores: &Doors, step: &Step) -> Vec<u8> {
    match step {
        Step::Open { name, .. } => name.to_bytes().to_vec(),
        Step::Take { record, .. } => packed(record).to_vec(),
        Step::Merge { other, .. } => stores.bytes(*other).to_vec(),
        Step::Report { .. } | Step::Text { .. } | Step::Put { .. } => Vec::new(),
    }
}

/// A refused opening answers as the reference does, and leaves what the buffer
/// held, be it a live store.
pub fn refused_openings(count: &mut Count) {
    let mut random = Random::new(74);
    for _ in 0..REFUSED_OPENINGS {
        let bulletin = any_bulletin(&mut random);
        let store = any_store(&mut random, &bulletin);
        let name = bad_name(&mut random, &bulletin.name);
        let refusal = Store::open(name).0.expect_err("a value of the name is out of range");
        let ours = calls::open(&name.to_bytes(), &store);
        count.same(&name.to_bytes(), &ours, &Outcome::new(refusal.into(), store.to_vec()));
        values::note(count, refusal.into());
    }
}

/// Record bytes that no record has: a sound store refuses them as writing
/// does, any other with 14.
pub fn stray_records(count: &mut Count) {
    let mut random = Random::new(75);
    for _ in 0..STRAY_RECORDS {
        let bulletin = any_bulletin(&mut random);
        let store = any_store(&mut random, &bulletin);
        let record = stray_record(&mut random, &bulletin);
        let ours = calls::take(&store, &record);
        let sound = Store::of_bytes(&store).is_sound();
        let written = || door::write(&record, &mut [0; 32]);
        let expected = if sound { written() } else { Answer::refused(14) };
        let input = [&store[..], &record].concat();
        let expected = Outcome::new(expected, store.to_vec());
        count.same(&input, &ours, &expected);
        agree_on_taking(count, &store, &record, &expected);
    }
}

/// Record bytes with a first byte that is no category, or with something
/// where the category has no field. Many are pages of the bulletin but for that.
fn stray_record(random: &mut Random, bulletin: &Bulletin) -> Bytes {
    let record = if random.one_in(2) { any_taking(random, bulletin) } else { any_record(random) };
    let mut bytes = packed(&record);
    if random.one_in(2) {
        bytes[0] = random.pick(&[0, 1, 6, 7, 10, 12, 15, 255]);
        bytes
    } else {
        with_stray(random, &record)
    }
}

/// The bulletin of document 004, heard by two receivers in any order with
/// losses: each frame is read and taken, the two stores are merged, and the
/// text comes out whole.
pub fn document_004(count: &mut Count) {
    let mut random = Random::new(76);
    let pages = samples::nankai();
    // Document 004 never splits a character at a page's end; a letter in front splits each.
    let crossing = format!("A{}", samples::NANKAI_TEXT);
    for pages in pages.chunks(pages.len() / 2) {
        for text in [samples::NANKAI_TEXT, &crossing] {
            let told = |(page, text): (&Record, _)| Record { text, ..*page };
            let pages: Vec<Record> = pages.iter().zip(samples::pages(text)).map(told).collect();
            for _ in 0..DELIVERIES {
                delivered(count, &mut random, &pages, text);
            }
        }
    }
}

/// The pages of a text, as two receivers heard them, come out as that text.
fn delivered(count: &mut Count, random: &mut Random, pages: &[Record], text: &str) {
    let (mut east, west) = two_receivers(random, pages);
    let answer = door::merge(&mut east, &west);
    count.same(&west, &answer, &Answer::FINE);
    let mut lent = pattern(1134);
    let mut expected = pattern(1134);
    expected[..text.len()].copy_from_slice(text.as_bytes());
    let answer = door::text(&east, &mut lent);
    let characters = std::str::from_utf8(&lent[..text.len()]).map(str::to_owned);
    count.same(&east, &characters, &Ok(text.to_owned()));
    count.same(&east, &(answer, lent), &(Answer::of_word(text.len() as u32), expected));
}

/// What two receivers heard of a bulletin, each page by at least one of them.
fn two_receivers(random: &mut Random, pages: &[Record]) -> (StoreBytes, StoreBytes) {
    let hearers: Vec<usize> = pages.iter().map(|_| random.below(3)).collect();
    let mut heard_by = |other: usize| {
        let both = pages.iter().zip(&hearers).filter(|(_, &hearer)| hearer != other);
        let mut heard: Vec<&Record> = both.map(|(page, _)| page).collect();
        random.shuffle(&mut heard);
        received(&pages[0], &heard)
    };
    (heard_by(0), heard_by(1))
}

/// The store that has taken the frames of these pages, in this order.
fn received(first: &Record, pages: &[&Record]) -> StoreBytes {
    let name = Name::of_record(first).expect("it is a Nankai page");
    let mut store = [0xA5; STORE_BYTES];
    assert_eq!(door::open(&name.to_bytes(), &mut store), Answer::FINE);
    for page in pages {
        let record = bytes_of(&frame_of(page));
        assert_eq!(door::take(&mut store, &record), Answer::of_word(1));
    }
    store
}
