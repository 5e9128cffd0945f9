//! Calls that stand by themselves: any numbers, any table, lists of any length with any words.

use second::generate::{
    arrivals, call, damage_table, fit_table, numbers, shaped_table, spoil_some_length, Call,
    Damage, Era, Random, Shape,
};
use second::{Numbers, MOST_PORTS};

use crate::both::{self, Tally};

const SEED: u64 = 2_024;
/// One call of so many has a table of any length, whole records or not; the others a short one.
const ANY_SIZE: u64 = 8;
const SHORT: u32 = 24;

pub fn compare(slots: u64, tally: &mut Tally) {
    let mut random = Random::new(SEED);
    for at in 0..slots {
        let call = next_call(&mut random);
        both::slot(&call, tally);
        both::fresh_start(call.numbers, &call.table);
        if at % 100 == 0 {
            both::no_numbers(&call, random.pick(&[0, 1, 2, 4, 5, 6]));
        }
    }
}

fn next_call(random: &mut Random) -> Call {
    if random.one_in(ANY_SIZE) {
        call(random)
    } else {
        short_call(random)
    }
}

fn short_call(random: &mut Random) -> Call {
    let w = numbers(random);
    let ports = w.ports.clamp(1, MOST_PORTS);
    let table = short_table(random, w, ports);
    let arrivals = arrivals(random, ports);
    let mut call = Call::new(random, w, table, arrivals);
    if random.one_in(12) {
        spoil_some_length(random, &mut call);
    }
    call
}

/// Fit for the numbers in seven of eight cases, and then sometimes full or all waiting for one output.
fn short_table(random: &mut Random, w: Numbers, ports: u32) -> Vec<u32> {
    let records = random.between(1, SHORT) as usize;
    let era = random.pick(&[Era::First, Era::Last, Era::Anywhere]);
    let output = random.between(0, ports - 1);
    let mut table = match random.below(8) {
        0 => shaped_table(random, ports, w.next, records, Shape::full(records, era)),
        1 => {
            let shape = Shape::one_output(records, era, output);
            shaped_table(random, ports, w.next, records, shape)
        }
        _ => fit_table(random, ports, w.next, records),
    };
    if random.one_in(8) {
        let damage = random.pick(&Damage::ALL);
        damage_table(random, damage, ports, w.next, &mut table);
    }
    table
}
