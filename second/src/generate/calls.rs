//! Random numbers, arrivals and lists, and whole calls made of them: mostly right, now and then
//! wrong in each way that document 01 gives a number for.

use super::{damage_table, fit_table, Damage, Random};
use crate::edge::{
    Numbers, ARRIVAL_WORDS, EXHALED_WORDS, MOST_PORTS, MOST_RECORDS, MOST_SPEEDUP, RECORD_WORDS,
};

/// All that one call of a slot is handed. The matches and the exhaled list hold any words.
#[derive(Clone, PartialEq, Eq, Debug)]
pub struct Call {
    pub numbers: Numbers,
    pub table: Vec<u32>,
    pub arrivals: Vec<u32>,
    pub matches: Vec<u32>,
    pub exhaled: Vec<u32>,
}

impl Call {
    /// The lists to be written have the lengths that go with the numbers, and any words in them.
    pub fn new(random: &mut Random, numbers: Numbers, table: Vec<u32>, arrivals: Vec<u32>) -> Call {
        let ports = sane_ports(numbers) as usize;
        let speedup = numbers.speedup.clamp(1, MOST_SPEEDUP) as usize;
        Call {
            numbers,
            table,
            arrivals,
            matches: any_words(random, speedup * ports),
            exhaled: any_words(random, EXHALED_WORDS * ports),
        }
    }
}

/// How often an input brings a cell, of a hundred slots, and the outputs that cells go to: so
/// many from this first one on, round after the last port.
#[derive(Clone, Copy, PartialEq, Eq, Debug)]
pub struct Traffic {
    pub load: u32,
    pub first_output: u32,
    pub outputs: u32,
}

impl Traffic {
    pub fn random(random: &mut Random, ports: u32) -> Traffic {
        let some = random.between(1, ports);
        Traffic {
            load: random.pick(&[0, 10, 40, 70, 90, 100]),
            first_output: random.between(0, ports - 1),
            outputs: random.pick(&[1, 2, some, ports, ports]).min(ports),
        }
    }
}

pub fn call(random: &mut Random) -> Call {
    let numbers = numbers(random);
    let table = table(random, numbers);
    let arrivals = arrivals(random, numbers.ports);
    let mut call = Call::new(random, numbers, table, arrivals);
    if random.one_in(10) {
        spoil_some_length(random, &mut call);
    }
    call
}

/// N, S and t, mostly valid.
pub fn numbers(random: &mut Random) -> Numbers {
    let mut numbers = valid_numbers(random);
    if random.one_in(20) {
        numbers.ports = random.pick(&[0, MOST_PORTS + 1, MOST_PORTS + 2, 1 << 16, u32::MAX]);
    }
    if random.one_in(20) {
        numbers.speedup = random.pick(&[0, MOST_SPEEDUP + 1, 1 << 8, u32::MAX]);
    }
    numbers
}

/// N from 1 to 16, S from 1 to 8, any t.
pub fn valid_numbers(random: &mut Random) -> Numbers {
    let small = random.between(1, 4);
    let any = random.between(1, MOST_PORTS);
    Numbers {
        ports: random.pick(&[small, any]),
        speedup: random.between(1, MOST_SPEEDUP),
        next: next_slot(random),
    }
}

/// Any t: 0, small, large, near the last and the last.
pub fn next_slot(random: &mut Random) -> u32 {
    match random.below(12) {
        0 => 0,
        1..=5 => random.between(1, 300),
        6 => random.any_u32(),
        7..=10 => u32::MAX - random.between(1, 300),
        _ => u32::MAX,
    }
}

/// A table length from 1 to 1,024, mostly short.
pub fn records(random: &mut Random) -> usize {
    let most = random.pick(&[4, 16, 16, 64, 64, MOST_RECORDS as u32]);
    let some = random.between(1, most);
    let length = if random.one_in(100) {
        MOST_RECORDS as u32
    } else {
        some
    };
    length as usize
}

/// A table for these numbers: mostly fit, sometimes damaged, seldom any words of any length.
pub fn table(random: &mut Random, numbers: Numbers) -> Vec<u32> {
    if random.one_in(20) {
        return wild_table(random);
    }
    let ports = sane_ports(numbers);
    let length = records(random);
    let mut table = fit_table(random, ports, numbers.next, length);
    if random.one_in(8) {
        let damage = random.pick(&Damage::ALL);
        damage_table(random, damage, ports, numbers.next, &mut table);
    }
    table
}

fn wild_table(random: &mut Random) -> Vec<u32> {
    let most_words = MOST_RECORDS * RECORD_WORDS;
    let some = random.index(200);
    let length = random.pick(&[
        0,
        1,
        some,
        some,
        some * RECORD_WORDS,
        most_words - 1,
        most_words + 1,
        most_words + RECORD_WORDS,
    ]);
    if random.one_in(2) {
        return vec![0; length];
    }
    (0..length).map(|_| small_or_any(random)).collect()
}

/// Arrivals for this N, mostly valid; for an N out of bounds, a list of some length.
pub fn arrivals(random: &mut Random, ports: u32) -> Vec<u32> {
    let ports = ports.clamp(1, MOST_PORTS);
    let traffic = Traffic::random(random, ports);
    let mut list = valid_arrivals(random, ports, traffic);
    if random.one_in(10) {
        spoil_arrivals(random, ports, &mut list);
    }
    list
}

/// Arrivals of which no first word is above N. After a 0 the tag is anything.
pub fn valid_arrivals(random: &mut Random, ports: u32, traffic: Traffic) -> Vec<u32> {
    (0..ports)
        .flat_map(|_| {
            let further = random.between(0, traffic.outputs - 1);
            let output = (traffic.first_output + further) % ports;
            let comes = random.percent(traffic.load);
            [if comes { output + 1 } else { 0 }, tag(random)]
        })
        .collect()
}

/// Puts a word above N in the place of some first word.
pub fn spoil_arrivals(random: &mut Random, ports: u32, arrivals: &mut [u32]) {
    let input = random.index(arrivals.len() / ARRIVAL_WORDS);
    arrivals[input * ARRIVAL_WORDS] = random.pick(&[ports + 1, ports + 2, 1 << 16, u32::MAX]);
}

/// Gives one of the three lists another length than it has.
pub fn spoil_some_length(random: &mut Random, call: &mut Call) {
    let lists = [&mut call.arrivals, &mut call.matches, &mut call.exhaled];
    let list = random.index(lists.len());
    spoil_length(random, lists[list]);
}

/// Gives a list another length than it has.
pub fn spoil_length(random: &mut Random, list: &mut Vec<u32>) {
    let right = list.len();
    let some = random.index(right.max(1));
    let length = random.pick(&[
        0,
        some,
        right.saturating_sub(1),
        right + 1,
        right + 1,
        2 * right,
    ]);
    let wrong = if length == right { right + 1 } else { length };
    let filling = random.any_u32();
    list.resize(wrong, filling);
}

/// A list of this length with anything in it.
pub fn any_words(random: &mut Random, length: usize) -> Vec<u32> {
    (0..length).map(|_| random.any_u32()).collect()
}

/// Any tag, often one that other cells have too.
pub fn tag(random: &mut Random) -> u32 {
    small_or_any(random)
}

fn small_or_any(random: &mut Random) -> u32 {
    let small = random.between(0, 3);
    let any = random.any_u32();
    random.pick(&[small, small, any, u32::MAX])
}

fn sane_ports(numbers: Numbers) -> u32 {
    numbers.ports.clamp(1, MOST_PORTS)
}
