//! Compares the proved library with the independent second program, word for word, on random calls,
//! on runs from fresh starts and on special calls; or the proved program with it, on texts.
//!
//!     compare                 as many random slot calls as SLOTS says, or a million, and the special ones
//!     compare texts PROGRAM   a few hundred texts
//!
//! All that is random comes from fixed seeds. A difference ends the comparison with the call, or the
//! text, and both outcomes.

mod arbitrary;
mod both;
mod runs;
mod special;
mod texts;

use std::env;

use both::Tally;

const SLOTS: u64 = 1_000_000;
/// How often each number must occur in a million slot calls.
const EACH_NUMBER: u64 = 1_000;

fn main() {
    let arguments: Vec<String> = env::args().skip(1).collect();
    match arguments
        .iter()
        .map(String::as_str)
        .collect::<Vec<_>>()
        .as_slice()
    {
        [] => {
            compare_calls(wanted_slots());
            special::compare();
        }
        ["texts", program] => texts::compare(program),
        _ => panic!("usage: compare, or compare texts PROGRAM"),
    }
}

fn wanted_slots() -> u64 {
    env::var("SLOTS").map_or(SLOTS, |text| text.parse().expect("SLOTS is a number"))
}

/// Four of five calls stand by themselves, one of five in a run.
fn compare_calls(slots: u64) {
    let mut tally = Tally::default();
    let in_runs = slots / 5;
    arbitrary::compare(slots - in_runs, &mut tally);
    runs::compare(in_runs, &mut tally);
    println!("{} slot calls alike in every word", tally.slots());
    for (number, times) in tally.numbers() {
        println!("  number {number}: {times}");
        assert!(
            times >= EACH_NUMBER * slots / SLOTS,
            "number {number} is too seldom"
        );
    }
}
