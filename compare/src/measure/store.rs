//! The time of taking a page, of merging two stores and of a text: the proved store
//! through the static library against the plain and the tuned store of the
//! reference, over a bulletin of 63 full pages. The plain store keeps its pages as
//! values, the other two are bytes.

use super::bulletin::{halves, holding, opened, pages, TEXT_MOST};
use super::turns::{compare, Told, Way};
use super::ROUNDS;
use crate::door;
use crate::packed::{packed, Bytes};
use reference::answer::Answer;
use reference::record::Record;
use reference::store::{StoreBytes, PAGES};
use reference::tuned;
use std::hint::black_box;

/// How often a bulletin is taken, merged or put together in a run.
const BULLETINS: usize = 1_000;

pub fn measure() {
    let pages = pages();
    measure_taking(&pages);
    measure_merging(&pages);
    measure_text(&pages);
}

/// Every page once, into a store that has none.
fn measure_taking(pages: &[Record]) {
    let bytes: Vec<Bytes> = pages.iter().map(packed).collect();
    let opened = opened().to_bytes();
    let taken_by = |take: fn(&mut StoreBytes, &Bytes) -> Answer| {
        let bytes = &bytes;
        move || {
            for _ in 0..BULLETINS {
                let mut store = opened;
                bytes.iter().for_each(|page| assert_eq!(take(&mut store, black_box(page)).mark, 1));
                black_box(&store);
            }
        }
    };
    let take_plain = || {
        for _ in 0..BULLETINS {
            black_box(holding(pages));
        }
    };
    let ways = vec![
        Way::new("proved", taken_by(|store, page| door::take(store, page))),
        Way::new("plain", take_plain),
        Way::new("tuned", taken_by(tuned::take)),
    ];
    compare("taking one page of 63", Told::OneCall { of: BULLETINS * PAGES }, ROUNDS, ways);
}

/// A store that holds the odd pages, and one that holds the others.
fn measure_merging(pages: &[Record]) {
    let [odd, even] = halves(pages);
    let (odd_bytes, even_bytes) = (odd.to_bytes(), even.to_bytes());
    let merged_by = |merge: fn(&mut StoreBytes, &StoreBytes) -> Answer| {
        move || {
            for _ in 0..BULLETINS {
                let mut store = odd_bytes;
                assert_eq!(merge(black_box(&mut store), black_box(&even_bytes)), Answer::FINE);
                black_box(&store);
            }
        }
    };
    let merge_plain = || {
        for _ in 0..BULLETINS {
            let mut store = odd;
            let merged = black_box(&mut store).merge(black_box(&even));
            merged.expect("both are of one bulletin");
            black_box(&store);
        }
    };
    let ways = vec![
        Way::new("proved", merged_by(|store, other| door::merge(store, other))),
        Way::new("plain", merge_plain),
        Way::new("tuned", merged_by(tuned::merge)),
    ];
    compare("merging two stores of 63", Told::OneCall { of: BULLETINS }, ROUNDS, ways);
}

/// The text of a store that holds every page.
fn measure_text(pages: &[Record]) {
    let store = holding(pages);
    let bytes = store.to_bytes();
    let put_by = |text: fn(&StoreBytes, &mut [u8]) -> Answer| {
        move || {
            for _ in 0..BULLETINS {
                let mut buffer = [0; TEXT_MOST];
                assert_eq!(text(black_box(&bytes), &mut buffer).number, 0);
                black_box(&buffer);
            }
        }
    };
    let put_plain = || {
        for _ in 0..BULLETINS {
            let mut buffer = [0; TEXT_MOST];
            black_box(&store).text(&mut buffer).expect("every page is held");
            black_box(&buffer);
        }
    };
    let ways = vec![
        Way::new("proved", put_by(|store, buffer| door::text(store, buffer))),
        Way::new("plain", put_plain),
        Way::new("tuned", put_by(tuned::text)),
    ];
    compare("the text of 63 pages", Told::OneCall { of: BULLETINS }, ROUNDS, ways);
}
