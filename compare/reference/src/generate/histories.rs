//! Histories of stores: steps one after another, in any order.

use super::{any_bulletin, any_store, any_taking, bad_name, Bulletin};
use crate::player::{Step, STORES};
use crate::random::Random;
use crate::store::{PAGES, PAGE_LENGTH};

/// Most stores are opened first; then come steps of all kinds, so stores are
/// merged in any tree; at last each store is asked for its report and text.
pub fn any_history(random: &mut Random) -> Vec<Step> {
    let bulletin = any_bulletin(random);
    let mut steps = Vec::new();
    for store in 0..STORES {
        if !random.one_in(8) {
            steps.push(Step::Open { store, name: bulletin.name });
        }
    }
    for _ in 0..random.below(40) {
        steps.push(any_step(random, &bulletin));
    }
    for store in 0..STORES {
        steps.push(Step::Report { store });
        steps.push(Step::Text { store, length: text_length(random, &bulletin) });
    }
    steps
}

fn any_step(random: &mut Random, bulletin: &Bulletin) -> Step {
    // The first stores get more of the steps, so that some have long histories.
    let store = random.pick(&[0, 0, 0, 1, 1, 2, 3]);
    match random.below(24) {
        0 => Step::Open { store, name: bulletin.name },
        1 => {
            let bad = bad_name(random, &bulletin.name);
            Step::Open { store, name: random.pick(&[bulletin.near, bad]) }
        }
        2 | 3 => Step::Put { store, bytes: Box::new(any_store(random, bulletin)) },
        4..=7 => Step::Merge { store, other: random.below(STORES) },
        8 => Step::Report { store },
        9 => Step::Text { store, length: text_length(random, bulletin) },
        _ => Step::Take { store, record: any_taking(random, bulletin) },
    }
}

/// The length of a buffer for the text: just enough for one of the texts on
/// the last page, one byte less, or any.
fn text_length(random: &mut Random, bulletin: &Bulletin) -> usize {
    let full = PAGE_LENGTH * usize::from(bulletin.name.total);
    let last = random.pick(&bulletin.texts);
    let zeros = last.iter().rev().take_while(|&&byte| byte == 0).count();
    let enough = full - zeros;
    let any = random.below(PAGES * PAGE_LENGTH + 50);
    random.pick(&[0, enough, enough.saturating_sub(1), full, full + 1, any])
}
