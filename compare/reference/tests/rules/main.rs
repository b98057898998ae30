//! The rules of reading and writing, one by one.

mod common;
mod flood;
mod ranges;
mod reading;
mod spares;
mod tsunami;
mod values;
mod volcano;
mod writing;
