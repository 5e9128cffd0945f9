//! A second program of document 01, written apart from the first so that the two can be compared.
//! Inside, cells stand in sets and the match is decided by its definition; flat words exist only
//! at the edge.

mod cells;
mod edge;
pub mod generate;
mod matching;
mod switch;
mod text;

pub use edge::{
    fresh_start, slot, Numbers, ARRIVAL_WORDS, EXHALED_WORDS, MOST_PORTS, MOST_RECORDS,
    MOST_SPEEDUP, RECORD_WORDS,
};
pub use text::run_text;
