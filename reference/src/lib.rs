//! An independent implementation of the planning unit's rules in plain Rust.
//!
//! It is the yardstick for another implementation: programs here make
//! districts, damaged files and lists of calls, run both sides and compare.

pub mod blocks;
pub mod calls;
pub mod ceiling;
pub mod console;
pub mod counties;
pub mod deck;
pub mod decks;
pub mod desk;
pub mod district;
pub mod example;
pub mod file;
pub mod frames;
pub mod leaders;
pub mod listing;
pub mod lists;
pub mod make;
pub mod meter;
pub mod offices;
pub mod options;
pub mod pack;
pub mod page;
pub mod phases;
pub mod random;
pub mod rating;
pub mod reasons;
pub mod records;
pub mod refusal;
pub mod station;
pub mod survey;
pub mod tables;
pub mod text;
pub mod texts;
pub mod turn;
pub mod unit;
pub mod unpack;
pub mod vectors;
pub mod why;
