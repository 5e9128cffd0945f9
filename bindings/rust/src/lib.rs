//! Treikwater: a scheduler for crossbar cell switches of up to 16 × 16 ports, proved in Rattle.
//!
//! [`Switch`] and [`Table`] are the safe calls, in cells and ports. [`words`] has the same calls on
//! the flat words that the library itself takes, without an allocation, and [`records`] views such
//! words as records and records as words, without a copy.

pub mod records;
mod refusal;
mod switch;
mod table;
pub mod words;

pub use refusal::Refusal;
pub use switch::{Arrival, Emitted, Outcome, Served, Switch};
pub use table::{Cell, Table, Unit};
