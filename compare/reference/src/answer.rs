//! What a call says in numbers, to a caller who is handed nothing else.

use crate::record::Refusal;

/// Number, place, page and mark of a refusal, each 0 where the refusal does not
/// name it, and beside 8 the value that was found at the place.
///
/// Where nothing is refused all is 0, but for the mark of a sentence that is read, which
/// is its satellite, the mark of a taking (1 new, 2 same, 3 disputed), page and mark of a
/// text, which are the two bytes of its length, and place, page and mark of a report:
/// held, disputed and lowest page.
#[derive(Clone, Copy, PartialEq, Eq, Debug, Default)]
pub struct Answer {
    pub number: u8,
    pub place: u8,
    pub page: u8,
    pub mark: u8,
    pub value: u64,
}

impl Answer {
    /// Nothing is refused, and there is nothing else to say.
    pub const FINE: Answer = Answer { number: 0, place: 0, page: 0, mark: 0, value: 0 };

    /// Number, place, page and mark from the bytes of a word, which has no room for
    /// a value.
    pub fn of_word(word: u32) -> Answer {
        let [number, place, page, mark] = word.to_be_bytes();
        Answer { number, place, page, mark, value: 0 }
    }

    /// A refusal that names nothing.
    pub fn refused(number: u8) -> Answer {
        Refusal::plain(number).into()
    }
}

impl From<Refusal> for Answer {
    fn from(refusal: Refusal) -> Answer {
        let Refusal { number, place, page, mark, value } = refusal;
        Answer { number, place, page, mark, value }
    }
}
