//! Runs from fresh starts with refused calls in between, both sides in step. An observer who sees the
//! calls alone notes when each cell is due (demand 3) and how many cells are inside.

use std::collections::BTreeMap;

use second::generate::{
    any_words, spoil_arrivals, spoil_length, valid_arrivals, Call, Random, Traffic,
};
use second::{Numbers, EXHALED_WORDS, MOST_PORTS, MOST_RECORDS, MOST_SPEEDUP, RECORD_WORDS};

use crate::both::{self, Tally};

const SEED: u64 = 162;
/// From this speedup on, each cell leaves exactly when it is due.
const PUNCTUAL: u32 = 3;

/// What all runs together showed.
#[derive(Default)]
struct Shown {
    runs: u64,
    emitted: u64,
    punctual: u64,
}

pub fn compare(slots: u64, tally: &mut Tally) {
    let mut random = Random::new(SEED);
    let mut shown = Shown::default();
    let end = tally.slots() + slots;
    while tally.slots() < end {
        let run = whole_run(&mut random, end, tally);
        shown.runs += 1;
        shown.emitted += run.emitted;
        if run.numbers.speedup >= PUNCTUAL {
            shown.punctual += run.emitted;
        }
    }
    println!(
        "{} runs: {} cells emitted, {} of them at speedup 3 or more, each in its slot s + k",
        shown.runs, shown.emitted, shown.punctual
    );
}

/// A run of random traffic that changes now and then.
fn whole_run(random: &mut Random, end: u64, tally: &mut Tally) -> Run {
    let mut run = Run::start(random);
    let ports = run.numbers.ports;
    let length = random.pick(&[20, 100, 100, 400, 2_000]);
    let mut traffic = Traffic::random(random, ports);
    for _ in 0..length {
        if tally.slots() >= end {
            break;
        }
        if random.one_in(20) {
            traffic = Traffic::random(random, ports);
        }
        if random.one_in(8) {
            run.refused_slot(random, tally);
        }
        if random.one_in(40) {
            run.refused_start(random);
        }
        let arrivals = valid_arrivals(random, ports, traffic);
        run.slot(random, arrivals, tally);
    }
    run
}

struct Run {
    numbers: Numbers,
    table: Vec<u32>,
    /// For each cell inside, by slot of entry and input, the slot in which it is due.
    due: BTreeMap<(u32, u32), u32>,
    accepted: u64,
    emitted: u64,
}

impl Run {
    /// A fresh start over any words.
    fn start(random: &mut Random) -> Run {
        let ports = random.between(1, MOST_PORTS);
        let wanted = Numbers {
            ports,
            speedup: random.between(1, MOST_SPEEDUP),
            next: random.any_u32(),
        };
        let short = random.between(ports, 3 * ports) as usize;
        let some = random.between(1, 200) as usize;
        let records = random.pick(&[short, short, 64, some, some, MOST_RECORDS]);
        let old = any_words(random, records * RECORD_WORDS);
        let (number, numbers, table) = both::fresh_start(wanted, &old);
        assert_eq!((number, numbers.next), (0, 0));
        Run {
            numbers,
            table,
            due: BTreeMap::new(),
            accepted: 0,
            emitted: 0,
        }
    }

    fn call(&self, random: &mut Random, arrivals: Vec<u32>) -> Call {
        Call::new(random, self.numbers, self.table.clone(), arrivals)
    }

    /// One call of a slot; a refusal for want of room is a refused call like any other.
    fn slot(&mut self, random: &mut Random, arrivals: Vec<u32>, tally: &mut Tally) {
        let coming = self.due_of(&arrivals);
        let room = self.table.len() / RECORD_WORDS - self.live();
        let call = self.call(random, arrivals);
        let (number, after) = both::slot(&call, tally);
        assert_eq!(number, if coming.len() > room { 8 } else { 0 });
        if number == 0 {
            self.accepted += coming.len() as u64;
            self.due.extend(coming);
            self.note_exhaled(&after.exhaled);
        }
        self.numbers = after.numbers;
        self.table = after.table;
        assert_eq!(self.accepted, self.emitted + self.live() as u64);
    }

    fn live(&self) -> usize {
        let records = self.table.chunks_exact(RECORD_WORDS);
        records.filter(|record| record[0] != 0).count()
    }

    /// For each arriving cell, its slot s and s + k: the live cells of its output are older, and so
    /// are the arriving ones of lower inputs.
    fn due_of(&self, arrivals: &[u32]) -> Vec<((u32, u32), u32)> {
        let now = self.numbers.next;
        let mut older = [0; MOST_PORTS as usize];
        for record in self.table.chunks_exact(RECORD_WORDS) {
            older[record[2] as usize] += u32::from(record[0] != 0);
        }
        let mut coming = Vec::new();
        for (input, words) in (0..).zip(arrivals.chunks_exact(2)) {
            let Some(output) = words[0].checked_sub(1) else {
                continue;
            };
            let before = &mut older[output as usize];
            coming.push(((now, input), now + *before));
            *before += 1;
        }
        coming
    }

    fn note_exhaled(&mut self, exhaled: &[u32]) {
        let now = self.numbers.next;
        for words in exhaled.chunks_exact(EXHALED_WORDS) {
            if words[0] == 0 {
                continue;
            }
            let due = self.due.remove(&(words[2], words[1]));
            let due = due.expect("an emitted cell was inside");
            assert!(self.numbers.speedup < PUNCTUAL || due == now, "not in time");
            self.emitted += 1;
        }
    }

    /// A slot that must be refused; what it leaves is what it found.
    fn refused_slot(&self, random: &mut Random, tally: &mut Tally) {
        let ports = self.numbers.ports;
        let mut call = self.call(random, vec![0; 2 * ports as usize]);
        let expected = random.between(1, 7);
        match expected {
            1 => call.numbers.ports = random.pick(&[0, 17, u32::MAX]),
            2 => call.numbers.speedup = random.pick(&[0, 9, u32::MAX]),
            3 => call.table.push(0),
            4 => call.table[0] = 3,
            5 => spoil_length(random, &mut call.exhaled),
            6 => spoil_arrivals(random, ports, &mut call.arrivals),
            _ => call.numbers.next = u32::MAX,
        }
        assert_eq!(both::slot(&call, tally).0, expected);
    }

    /// A fresh start that must be refused; the run goes on with its earlier numbers.
    fn refused_start(&self, random: &mut Random) {
        let mut wanted = self.numbers;
        let expected = random.between(1, 2);
        match expected {
            1 => wanted.ports = random.pick(&[0, 17]),
            _ => wanted.speedup = random.pick(&[0, 9]),
        }
        assert_eq!(both::fresh_start(wanted, &self.table).0, expected);
    }
}
