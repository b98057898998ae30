//! Names of bulletins, and records for a store to take or to refuse.

use super::{allowed_value, any_record, random_bytes, too_wide, valid_record, valid_spares};
use crate::random::Random;
use crate::record::{Category, Record, PREAMBLES};
use crate::store::{Name, PAGE_LENGTH};

/// The values of a name in its order, each with the ranges of document 01.
const NAME_VALUES: [&[(u64, u64)]; 8] = [
    &[(2, 2), (7, 7)],
    &[(1, 12)],
    &[(1, 31)],
    &[(0, 23)],
    &[(0, 59)],
    &[(0, 0), (2, 2)],
    &[(1, 15)],
    &[(1, 63)],
];

/// One bulletin, another that is easily taken for it, and the few texts that
/// their pages have, so that the same and another one often come again.
#[derive(Clone, Debug)]
pub struct Bulletin {
    pub name: Name,
    pub near: Name,
    pub texts: Vec<[u8; PAGE_LENGTH]>,
}

/// A bulletin, of few pages for the most part: those are often complete.
pub fn any_bulletin(random: &mut Random) -> Bulletin {
    let few = random.pick(&[1, 2, 2, 3, 3, 4, 5]);
    let many = allowed_value(random, &[(1, 63), (27, 27)]) as u8;
    let total = if random.one_in(4) { many } else { few };
    let name = Name { total, ..valid_name(random) };
    Bulletin { name, near: near_name(random, &name), texts: few_texts(random) }
}

pub fn valid_name(random: &mut Random) -> Name {
    Name::of_bytes(NAME_VALUES.map(|allowed| allowed_value(random, allowed) as u8))
}

/// A name that differs in one value and is in range too.
pub fn near_name(random: &mut Random, name: &Name) -> Name {
    let mut bytes = name.to_bytes();
    let place = random.below(bytes.len());
    while bytes == name.to_bytes() {
        bytes[place] = allowed_value(random, NAME_VALUES[place]) as u8;
    }
    Name::of_bytes(bytes)
}

/// A name with at least one value out of range, just outside or far.
pub fn bad_name(random: &mut Random, name: &Name) -> Name {
    let mut bytes = name.to_bytes();
    for _ in 0..1 + random.below(3) {
        let place = random.below(bytes.len());
        bytes[place] = value_outside(random, NAME_VALUES[place]);
    }
    Name::of_bytes(bytes)
}

fn value_outside(random: &mut Random, allowed: &[(u64, u64)]) -> u8 {
    loop {
        let (lowest, highest) = random.pick(allowed);
        let far = random.bits(8);
        let value = random.pick(&[lowest.saturating_sub(1), highest + 1, highest + 64, far]);
        if !allowed.iter().any(|&(lowest, highest)| (lowest..=highest).contains(&value)) {
            return value as u8;
        }
    }
}

/// Two or three texts: zeros, a text that ends early, one with a zero inside
/// or in front, one of any bytes, and a neighbour that differs in one bit.
pub fn few_texts(random: &mut Random) -> Vec<[u8; PAGE_LENGTH]> {
    let full: [u8; PAGE_LENGTH] = std::array::from_fn(|_| 1 + random.below(255) as u8);
    let mut short = full;
    short[1 + random.below(PAGE_LENGTH - 1)..].fill(0);
    let mut holed = full;
    holed[random.below(PAGE_LENGTH)] = 0;
    let mut neighbour = full;
    neighbour[random.below(PAGE_LENGTH)] ^= 1 << random.below(8);
    let any = random_bytes(random, PAGE_LENGTH).try_into().expect("it has a page's length");
    let kinds = [[0; PAGE_LENGTH], full, short, holed, neighbour, any];
    (0..2 + random.below(2)).map(|_| random.pick(&kinds)).collect()
}

/// A valid page of a bulletin, with one of the texts.
pub fn bulletin_page(random: &mut Random, name: &Name, texts: &[[u8; PAGE_LENGTH]]) -> Record {
    let page = allowed_value(random, &[(1, name.total.into())]) as u8;
    let text = random.pick(texts);
    sent_again(random, &name.page(page, text))
}

/// The same page with any preamble, Reserved and spares, which play no part.
pub fn sent_again(random: &mut Random, page: &Record) -> Record {
    let preamble = random.pick(&PREAMBLES);
    let reserved = random.bits(6) as u8;
    let spares = valid_spares(random, Category::Nankai);
    Record { preamble, reserved, spares, ..*page }
}

/// A record for the store of a bulletin: mostly one of its pages.
pub fn any_taking(random: &mut Random, bulletin: &Bulletin) -> Record {
    let Bulletin { name, near, texts } = bulletin;
    match random.below(24) {
        0 | 1 => bulletin_page(random, near, texts),
        2 => wrong_page(random, name, texts),
        3 => spoiled_page(random, name, texts),
        4 => other_category(random, name),
        5 => {
            let bad = bad_name(random, name);
            bad.page(1, random.pick(texts))
        }
        6 => any_record(random),
        _ => bulletin_page(random, name, texts),
    }
}

/// Page 0, or a page beyond the total, near or far.
pub fn wrong_page(random: &mut Random, name: &Name, texts: &[[u8; PAGE_LENGTH]]) -> Record {
    let beyond = random.between(u64::from(name.total) + 1, 255) as u8;
    let page = random.pick(&[0, name.total + 1, beyond]);
    name.page(page, random.pick(texts))
}

/// A page of the bulletin with a bad preamble, too much in Reserved or in a
/// spare, or something in a slot.
pub fn spoiled_page(random: &mut Random, name: &Name, texts: &[[u8; PAGE_LENGTH]]) -> Record {
    let mut record = bulletin_page(random, name, texts);
    match random.below(5) {
        0 => record.preamble = random.pick(&[0, 0x52, 0x54, 0xFF]),
        1 => record.reserved = random.between(64, 255) as u8,
        2 => record.spares[0] = too_wide(random, 10),
        3 => record.spares[1] = too_wide(random, 1),
        _ => record.slots[random.below(16)].strength = 1,
    }
    record
}

/// A valid record of another category that is issued as the bulletin is, but for
/// an Rc that its category does not have.
pub fn other_category(random: &mut Random, name: &Name) -> Record {
    let mut others = Category::ALL.to_vec();
    others.retain(|&category| category != Category::Nankai);
    let category = random.pick(&others);
    let record = valid_record(random, category);
    let rc = if category == Category::Tsunami { record.rc } else { name.rc };
    let Name { month, day, hour, minute, it, .. } = *name;
    Record { rc, month, day, hour, minute, it, ..record }
}
