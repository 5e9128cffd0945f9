//! Records and words are the same bytes at the same place, and a slot cannot tell them apart.

use std::slice;

use second::generate::{any_words, call, Call, Random};
use second::RECORD_WORDS;
use treikwater::records::{records_of, records_of_mut, words_of, words_of_mut, Record};
use treikwater::words;

const SLOTS: usize = 600;
/// At least so many of them must be accepted.
const ACCEPTED: usize = 200;

/// The records' fields, by name.
fn fields(records: &[Record]) -> Vec<u32> {
    records
        .iter()
        .flat_map(|r| [r.place, r.input, r.output, r.entered, r.tag])
        .collect()
}

/// The call's slot on this table: the number, and the numbers and lists as they are afterwards.
fn slot(call: &Call, table: &mut [u32]) -> (u32, [u32; 3], [Vec<u32>; 2]) {
    let w = call.numbers;
    let mut numbers = [w.ports, w.speedup, w.next];
    let mut lists = [call.matches.clone(), call.exhaled.clone()];
    let [matches, exhaled] = &mut lists;
    let number = words::slot(&mut numbers, table, &call.arrivals, matches, exhaled);
    (number, numbers, lists)
}

fn bytes_of(records: &[Record]) -> &[u8] {
    // SAFETY: five words leave no gaps, and any byte may be read.
    unsafe { slice::from_raw_parts(records.as_ptr().cast::<u8>(), size_of_val(records)) }
}

#[test]
fn a_slot_on_records_is_the_slot_on_words() {
    let mut random = Random::new(31);
    let mut accepted = 0;
    for _ in 0..SLOTS {
        let call = call(&mut random);
        let Some(viewed) = records_of(&call.table) else {
            continue;
        };
        let (mut records, mut table) = (viewed.to_vec(), call.table.clone());
        let left = slot(&call, words_of_mut(&mut records));
        assert_eq!(left, slot(&call, &mut table), "{call:?}");
        assert_eq!(fields(&records), table, "{call:?}");
        accepted += usize::from(left.0 == 0);
    }
    assert!(accepted >= ACCEPTED, "{accepted}");
}

#[test]
fn the_bytes_and_their_place_are_the_same() {
    let mut random = Random::new(32);
    for length in 0..20 {
        let mut words = any_words(&mut random, length * RECORD_WORDS);
        let start = words.as_ptr();
        let records = records_of(&words).expect("whole records");
        let bytes: Vec<u8> = fields(records)
            .into_iter()
            .flat_map(u32::to_ne_bytes)
            .collect();
        assert_eq!(bytes_of(records), bytes);
        assert_eq!(words_of(records), words);
        assert_eq!(records.as_ptr().cast(), start);
        assert_eq!(words_of(records).as_ptr(), start);
        let records = records_of_mut(&mut words).expect("whole records");
        assert_eq!(records.as_ptr().cast(), start);
        assert_eq!(words_of_mut(records).as_ptr(), start);
    }
}

#[test]
fn ragged_words_are_no_records() {
    let mut words = [7; 3 * RECORD_WORDS];
    for length in 0..=words.len() {
        let whole = [0, 5, 10, 15].iter().position(|whole| *whole == length);
        let words = &mut words[..length];
        assert_eq!(records_of(words).map(<[Record]>::len), whole);
        assert_eq!(records_of_mut(words).map(|records| records.len()), whole);
    }
}
