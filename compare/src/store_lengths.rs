//! Names, stores and record bytes of other lengths, lent to the functions on
//! stores: what they answer, and that every buffer stays as it was.

use crate::calls;
use crate::lent::{from_to, only_read, refused, resized, to_from, Outcome};
use crate::packed::{packed, LENGTH};
use crate::values::value_of;
use crate::{door, pattern, Count};
use reference::answer::Answer;
use reference::generate::{any_bulletin, any_store, any_taking, bad_name, sound_store, Bulletin};
use reference::random::Random;
use reference::record::Record;
use reference::store::{Name, Store, NAME_BYTES, STORE_BYTES};

const ROUNDS: usize = 2_000;
const RECORD_ROUNDS: usize = 200;

/// A name that is not 8 bytes or a buffer that is not 1205 is 255, whatever
/// name it is and whatever store the buffer held.
pub fn openings(count: &mut Count) {
    let mut random = Random::new(78);
    for _ in 0..ROUNDS {
        let bulletin = any_bulletin(&mut random);
        let bad = bad_name(&mut random, &bulletin.name);
        let name = random.pick(&[bulletin.name, bad]);
        let store = any_store(&mut random, &bulletin);
        for name_length in lengths(&mut random, NAME_BYTES) {
            for length in lengths(&mut random, STORE_BYTES) {
                if (name_length, length) != (NAME_BYTES, STORE_BYTES) {
                    not_opened(count, &name, name_length, &resized(&store, length));
                }
            }
        }
    }
}

/// The value is asked of the name alone, and only 8 bytes are a name.
fn not_opened(count: &mut Count, name: &Name, name_length: usize, store: &[u8]) {
    let is_name = name_length == NAME_BYTES;
    let asked = if is_name { value_of(Store::open(*name).0) } else { 0 };
    let name = resized(&name.to_bytes(), name_length);
    let expected = Outcome { asked, ..refused(255, store) };
    count.same(&[&name[..], store].concat(), &calls::open(&name, store), &expected);
}

/// A store that is not 1205 bytes is 14 in each call, whatever is lent beside
/// it.
pub fn stores(count: &mut Count) {
    let mut random = Random::new(79);
    for _ in 0..ROUNDS {
        let bulletin = any_bulletin(&mut random);
        let store = any_store(&mut random, &bulletin);
        for length in other_lengths(&mut random, STORE_BYTES) {
            let store = resized(&store, length);
            not_taken_into(count, &mut random, &bulletin, &store);
            not_merged(count, &mut random, &bulletin, &store);
            not_told(count, &mut random, &store);
        }
    }
}

/// Record bytes that are not 251 are taken as a record of zeros is: 14 or 3.
pub fn records(count: &mut Count) {
    let mut random = Random::new(80);
    for _ in 0..RECORD_ROUNDS {
        let bulletin = any_bulletin(&mut random);
        let store = any_store(&mut random, &bulletin);
        let record = packed(&any_taking(&mut random, &bulletin));
        let answer = Store::of_bytes(&store).take(&Record::default());
        let expected = answer.expect_err("a record of zeros is refused").into();
        for length in (0..=300).filter(|&length| length != LENGTH) {
            let record = resized(&record, length);
            let input = [&store[..], &record].concat();
            let expected = Outcome::new(expected, store.to_vec());
            count.same(&input, &calls::take(&store, &record), &expected);
        }
    }
}

fn not_taken_into(count: &mut Count, random: &mut Random, bulletin: &Bulletin, store: &[u8]) {
    let record = packed(&any_taking(random, bulletin));
    for length in lengths(random, LENGTH) {
        let record = resized(&record, length);
        count.same(store, &calls::take(store, &record), &refused(14, store));
    }
}

/// With a store that is sound, with any other, and with itself, in both orders.
fn not_merged(count: &mut Count, random: &mut Random, bulletin: &Bulletin, store: &[u8]) {
    let sound = sound_store(random, bulletin).to_bytes();
    let any = any_store(random, bulletin);
    for other in [&sound[..], &any, store] {
        let input = [store, other].concat();
        count.same(&input, &to_from(door::merge, store, other), &refused(14, store));
        count.same(&input, &to_from(door::merge, other, store), &refused(14, other));
    }
}

fn not_told(count: &mut Count, random: &mut Random, store: &[u8]) {
    count.same(store, &only_read(store, door::report), &Answer::refused(14));
    for length in [0, random.below(1134), 1134] {
        let text = pattern(length);
        count.same(store, &from_to(door::text, store, &text), &refused(14, &text));
    }
}

/// The right length and some others.
fn lengths(random: &mut Random, right: usize) -> Vec<usize> {
    [vec![right], other_lengths(random, right)].concat()
}

/// None, one byte less or more, twice as many, and any.
fn other_lengths(random: &mut Random, right: usize) -> Vec<usize> {
    let any = random.below(2 * right);
    let others = [0, right - 1, right + 1, 2 * right, any];
    others.into_iter().filter(|&length| length != right).collect()
}
