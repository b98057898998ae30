//! The page store of a Nankai bulletin.

mod histories;
mod nankai;
mod refusals;
mod sentences;
mod words;
