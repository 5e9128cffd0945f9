//! A cell in one word, so that the lower word is the older cell: from the top its slot (32 bits), its
//! input (4), its output (4) and its record (10). Above them there is room for a reading.

pub type Key = u64;

/// Above every key.
pub const NO_CELL: Key = Key::MAX;

const ENTERED: u32 = 18;
const INPUT: u32 = 14;
const OUTPUT: u32 = 10;
const READING: u32 = 50;

pub fn of(entered: u32, input: u32, output: u32, record: usize) -> Key {
    u64::from(entered) << ENTERED
        | u64::from(input) << INPUT
        | u64::from(output) << OUTPUT
        | record as u64
}

pub fn input(key: Key) -> usize {
    (key >> INPUT) as usize % 16
}

pub fn output(key: Key) -> usize {
    (key >> OUTPUT) as usize % 16
}

/// Input and output in one number, 16 times the input and the output.
pub fn queue(key: Key) -> usize {
    (key >> OUTPUT) as usize % 256
}

pub fn record(key: Key) -> usize {
    key as usize % 1024
}

/// Slot and input, which no two cells of a fit table have in common.
pub fn entry(key: Key) -> u64 {
    key >> INPUT
}

/// The key of one that stands among cells of other readings.
pub fn with_reading(key: Key, reading: u32) -> Key {
    key | u64::from(reading) << READING
}

pub fn without_reading(key: Key) -> Key {
    key & ((1 << READING) - 1)
}
