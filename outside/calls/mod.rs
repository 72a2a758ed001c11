//! The calls, a file for each. A new call is one more file, one line in each
//! of the two lists here, and its rules in the plain implementation.

pub mod block;
pub mod centres;
pub mod enter;
pub mod judge;
pub mod mend;
pub mod merge;
pub mod minima;
pub mod open;
pub mod read;
pub mod tariff;
pub mod withdraw;
pub mod write;

use crate::comparing::Kind;

pub static CALLS: [&Kind; 12] = [
    &open::KIND,
    &minima::KIND,
    &enter::KIND,
    &withdraw::KIND,
    &centres::KIND,
    &block::KIND,
    &tariff::KIND,
    &judge::KIND,
    &read::KIND,
    &write::KIND,
    &merge::KIND,
    &mend::KIND,
];
