//! The same slot in plain Rust, twice: by scans over the table, in the obvious shape, and as fast as
//! plain Rust was found to go. Both make every check of document 01 on every call.

pub mod checks;
pub mod stages;
pub mod ranked;
pub mod scans;
pub mod states;
pub mod text;

/// What a slot is handed, on words: N, S and t; the table; the arrivals, matches and exhaled list.
pub struct Call<'a> {
    pub numbers: &'a mut [u32; 3],
    pub table: &'a mut [u32],
    pub arrivals: &'a [u32],
    pub matches: &'a mut [u32],
    pub exhaled: &'a mut [u32],
}

/// A slot; gives a number from 0 to 8.
pub type SlotFn = fn(Call) -> u32;

/// The proved slot.
pub fn proved(call: Call) -> u32 {
    treikwater::words::slot(
        call.numbers,
        call.table,
        call.arrivals,
        call.matches,
        call.exhaled,
    )
}
