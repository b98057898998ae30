//! A reference reader and writer for DC Report frames of message type 43 in
//! categories 2, 3, 4, 5, 8, 9 and 11. It is written from the papers alone, with
//! plainness before speed, so that another implementation can be compared
//! with it on as many inputs as one likes.
//!
//! `read` and `write` work on frames, `line` on lines of digits, `sentence` on the
//! sentences of a receiver; `parity` is the parity of a frame in three ways;
//! `meaning` says what numbers of a record mean; `place` is the list of places;
//! `listing` is the listing of a file of frames or of sentences; `damage` is what may
//! happen to a frame on its way.
//! `store` is the page store, `history` a second account of it, and `player`
//! drives both, and any other, through the same steps, each with its `answer`.
//! `generate` builds inputs for all of them, `samples` holds the values of
//! document 004. `tuned` does the same as the plain reader, writer, store and
//! listing, with speed before plainness, so that times can be compared too.

pub mod answer;
pub mod bits;
pub mod check;
pub mod damage;
pub mod fields;
pub mod generate;
pub mod history;
pub mod line;
pub mod listing;
pub mod meaning;
pub mod parity;
pub mod place;
pub mod player;
pub mod random;
pub mod read;
pub mod record;
pub mod samples;
pub mod sentence;
pub mod store;
pub mod tuned;
pub mod write;
