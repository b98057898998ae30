//! What document 01 says of the page store, sentence by sentence.

use crate::words::*;
use reference::record::{Record, PREAMBLES};
use reference::store::{Name, Page, Report, Store, Taken, ABSENT, DISPUTED, HELD};

const BLANK: [u8; 18] = [0; 18];

fn page(mark: u8, text: [u8; 18]) -> Page {
    Page { mark, text }
}

fn report(store: &Store) -> [u8; 3] {
    let (answer, Report { held, disputed, lowest }) = store.report();
    assert_eq!(answer, Ok(()));
    [held, disputed, lowest]
}

#[test]
fn it_starts_with_no_page() {
    let store = opened(NAME);
    assert_eq!(store.name, NAME);
    assert_eq!(store.pages, [page(ABSENT, BLANK); 63]);
    assert_eq!(report(&store), [0, 0, 1]);
}

#[test]
fn new_where_it_was_absent_same_where_held_disputed_otherwise() {
    let mut store = opened(NAME);
    assert_eq!(take(&mut store, 2, SPRING), Taken::New);
    assert_eq!(store.pages[1], page(HELD, SPRING));
    assert_eq!(take(&mut store, 2, SPRING), Taken::Same);
    assert_eq!(store.pages[1], page(HELD, SPRING));
    assert_eq!(take(&mut store, 2, SUMMER), Taken::Disputed);
    assert_eq!(store.pages[1], page(DISPUTED, BLANK));
    assert_eq!([store.pages[0], store.pages[2]], [page(ABSENT, BLANK); 2]);
}

#[test]
fn a_page_already_disputed_stays_so_and_answers_disputed() {
    let mut store = store_of(&[(1, SPRING), (1, SUMMER)]);
    for text in [SPRING, SUMMER, BLANK] {
        assert_eq!(take(&mut store, 1, text), Taken::Disputed);
        assert_eq!(store.pages[0], page(DISPUTED, BLANK));
    }
}

#[test]
fn a_page_of_18_zero_bytes_is_a_page() {
    let mut store = opened(NAME);
    assert_eq!(take(&mut store, 1, BLANK), Taken::New);
    assert_eq!(report(&store), [1, 0, 2]);
    assert_eq!(take(&mut store, 1, BLANK), Taken::Same);
    assert_eq!(take(&mut store, 1, SPRING), Taken::Disputed);
    assert_eq!(take(&mut store, 1, BLANK), Taken::Disputed);
}

#[test]
fn preamble_reserved_and_spares_play_no_part() {
    let sent = |preamble, reserved, spares, text| Record {
        preamble,
        reserved,
        spares,
        ..NAME.page(1, text)
    };
    let mut sendings = vec![([0, 0], 0), ([1023, 1], 63), ([0, 1], 21), ([512, 0], 0)];
    sendings.extend((0..10).map(|bit| ([1 << bit, 0], 0)));
    for &(first, reserved) in &sendings {
        let mut store = opened(NAME);
        assert_eq!(store.take(&sent(PREAMBLES[0], reserved, first, SPRING)), Ok(Taken::New));
        assert_eq!(store, store_of(&[(1, SPRING)]));
        for &(again, reserved) in &sendings {
            assert_eq!(store.take(&sent(PREAMBLES[1], reserved, again, SPRING)), Ok(Taken::Same));
            assert_eq!(store, store_of(&[(1, SPRING)]));
        }
        // Another text is another one, and equal spares do not make up for it.
        assert_eq!(store.take(&sent(PREAMBLES[0], reserved, first, SUMMER)), Ok(Taken::Disputed));
        assert_eq!(store.take(&sent(PREAMBLES[2], 21, first, SPRING)), Ok(Taken::Disputed));
    }
}

#[test]
fn merging_goes_page_by_page() {
    let states = [
        (vec![], page(ABSENT, BLANK)),
        (vec![(1, SPRING)], page(HELD, SPRING)),
        (vec![(1, SUMMER)], page(HELD, SUMMER)),
        (vec![(1, SPRING), (1, SUMMER)], page(DISPUTED, BLANK)),
    ];
    for (ours, one) in &states {
        for (theirs, other) in &states {
            let expected = match (one.mark, other.mark) {
                (ABSENT, _) => *other,
                (_, ABSENT) => *one,
                (HELD, HELD) if one.text == other.text => *one,
                _ => page(DISPUTED, BLANK),
            };
            let store = merged(&store_of(ours), &store_of(theirs));
            assert_eq!(store.pages[0], expected);
            assert_eq!(store.pages[1..], [page(ABSENT, BLANK); 62]);
        }
    }
}

#[test]
fn a_merged_store_counts_as_having_taken_the_frames_of_both() {
    let (ours, theirs) = ([(1, SPRING), (2, SPRING)], [(2, SUMMER), (3, SUMMER)]);
    let both = [ours, theirs].concat();
    assert_eq!(merged(&store_of(&ours), &store_of(&theirs)), store_of(&both));
}

#[test]
fn a_store_reports_held_disputed_and_the_lowest_not_held() {
    assert_eq!(report(&store_of(&[(1, SPRING), (3, SPRING)])), [2, 0, 2]);
    assert_eq!(report(&store_of(&[(1, SPRING), (2, SPRING), (2, SUMMER)])), [1, 1, 2]);
    assert_eq!(report(&store_of(&[(1, SPRING), (2, SPRING), (3, SPRING)])), [3, 0, 0]);
    assert_eq!(report(&store_of(&[(3, SPRING), (3, SUMMER)])), [0, 1, 1]);
}

#[test]
fn as_many_frames_as_pages_do_not_make_it_complete() {
    let store = store_of(&[(1, SPRING), (2, SPRING), (2, SPRING)]);
    assert_eq!(report(&store), [2, 0, 3]);
    assert!(store.text(&mut [0; 1134]).is_err());
}

#[test]
fn the_text_is_the_pages_bytes_in_order_less_all_zero_bytes_at_its_end() {
    let mut short = SUMMER;
    short[5..].fill(0);
    let store = store_of(&[(3, short), (1, SPRING), (2, BLANK)]);
    assert_eq!(text(&store), [&SPRING[..], &BLANK, b"plums"].concat());
    let store = store_of(&[(1, short), (2, BLANK), (3, BLANK)]);
    assert_eq!(text(&store), b"plums");
    let store = store_of(&[(1, BLANK), (2, BLANK), (3, BLANK)]);
    assert_eq!(text(&store), b"");
    assert_eq!(store.text(&mut []), Ok(0));
}

#[test]
fn a_text_has_at_most_1134_bytes() {
    let mut store = opened(Name { total: 63, ..NAME });
    for number in (1..=63).rev() {
        take(&mut store, number, [number; 18]);
    }
    let expected: Vec<u8> = (1..=63).flat_map(|number| [number; 18]).collect();
    assert_eq!(text(&store), expected);
    assert_eq!(expected.len(), 1134);
}

#[test]
fn a_store_goes_to_its_bytes_and_back() {
    let store = store_of(&[(1, SPRING), (3, SPRING), (3, SUMMER)]);
    let bytes = store.to_bytes();
    assert_eq!(bytes[..9], [7, 3, 11, 4, 35, 0, 5, 3, HELD]);
    assert_eq!(bytes[9..27], SPRING);
    assert_eq!(bytes[27..46], [0; 19]);
    assert_eq!((bytes[46], bytes.len()), (DISPUTED, 1205));
    assert!(bytes[47..].iter().all(|&byte| byte == 0));
    assert_eq!(Store::of_bytes(&bytes), store);
    let any = std::array::from_fn(|place| 0xA5 ^ place as u8);
    assert_eq!(Store::of_bytes(&any).to_bytes(), any);
    assert_eq!(Store::ZEROS.to_bytes(), [0; 1205]);
}
