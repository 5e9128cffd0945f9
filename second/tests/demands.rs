//! Properties of whole runs from a fresh start, with refused calls in between: the slot in which
//! each cell leaves (demand 3), and the conserved total of cells.

use std::collections::BTreeMap;

use second::generate::{
    any_words, damage_table, spoil_arrivals, spoil_length, valid_arrivals, Damage, Random, Traffic,
};
use second::{fresh_start, slot, Numbers, EXHALED_WORDS, MOST_RECORDS, RECORD_WORDS};

/// A run and what an observer of its calls has noted.
struct Run {
    numbers: Numbers,
    table: Vec<u32>,
    /// For each cell inside, by slot of entry and input, the slot in which it is to leave.
    due: BTreeMap<(u32, u32), u32>,
    accepted: usize,
    emitted: usize,
    /// Emitted cells that left in another slot than the one due.
    amiss: usize,
}

impl Run {
    fn start(random: &mut Random, ports: u32, speedup: u32, records: usize) -> Run {
        let mut table = any_words(random, records * RECORD_WORDS);
        let wanted = Numbers {
            ports,
            speedup,
            next: random.any_u32(),
        };
        let (number, numbers) = fresh_start(wanted, &mut table);
        assert_eq!(number, 0);
        Run {
            numbers,
            table,
            due: BTreeMap::new(),
            accepted: 0,
            emitted: 0,
            amiss: 0,
        }
    }

    fn lists(&self, random: &mut Random) -> (Vec<u32>, Vec<u32>) {
        let ports = self.numbers.ports as usize;
        let matches = any_words(random, self.numbers.speedup as usize * ports);
        (matches, any_words(random, EXHALED_WORDS * ports))
    }

    fn live(&self) -> usize {
        let records = self.table.chunks_exact(RECORD_WORDS);
        records.filter(|record| record[0] != 0).count()
    }

    fn live_for(&self, output: u32) -> usize {
        let records = self.table.chunks_exact(RECORD_WORDS);
        records
            .filter(|record| record[0] != 0 && record[2] == output)
            .count()
    }

    /// Slot s plus k for each arriving cell: every live cell of its output is older, and so are
    /// the arriving ones of lower inputs.
    fn due_of(&self, arrivals: &[u32]) -> Vec<((u32, u32), u32)> {
        let now = self.numbers.next;
        let firsts: Vec<u32> = arrivals.chunks_exact(2).map(|words| words[0]).collect();
        (0..)
            .zip(&firsts)
            .filter(|(_, &first)| first != 0)
            .map(|(input, &first)| {
                let lower = &firsts[..input as usize];
                let before = self.live_for(first - 1)
                    + lower.iter().filter(|&&other| other == first).count();
                ((now, input), now + before as u32)
            })
            .collect()
    }

    /// One call of a slot; a refusal for want of room is a refused call like any other.
    fn slot(&mut self, random: &mut Random, arrivals: &[u32]) {
        let (mut matches, mut exhaled) = self.lists(random);
        let coming = self.due_of(arrivals);
        let room = self.table.len() / RECORD_WORDS - self.live();
        let now = self.numbers.next;
        let (number, numbers) = slot(
            self.numbers,
            &mut self.table,
            arrivals,
            &mut matches,
            &mut exhaled,
        );
        self.numbers = numbers;
        assert_eq!(number, if coming.len() > room { 8 } else { 0 });
        if number == 0 {
            self.accepted += coming.len();
            self.due.extend(coming);
            self.note_exhaled(now, &exhaled);
        }
        assert_eq!(self.accepted, self.emitted + self.live());
        assert_eq!(self.due.len(), self.live());
    }

    fn note_exhaled(&mut self, now: u32, exhaled: &[u32]) {
        for words in exhaled.chunks_exact(EXHALED_WORDS) {
            if words[0] == 0 {
                continue;
            }
            let due = self.due.remove(&(words[2], words[1]));
            let due = due.expect("an emitted cell was inside");
            self.amiss += usize::from(due != now);
            self.emitted += 1;
        }
    }

    /// A call that must be refused and change nothing.
    fn refused_call(&self, random: &mut Random) {
        let ports = self.numbers.ports;
        let mut w = self.numbers;
        let mut table = self.table.clone();
        let mut arrivals = vec![0; 2 * ports as usize];
        let (mut matches, mut exhaled) = self.lists(random);
        let expected = 1 + random.index(7) as u32;
        match expected {
            1 => w.ports = random.pick(&[0, 17, u32::MAX]),
            2 => w.speedup = random.pick(&[0, 9, u32::MAX]),
            3 => table.push(0),
            4 => assert!(damage_table(
                random,
                Damage::Place,
                ports,
                w.next,
                &mut table
            )),
            5 => match random.index(3) {
                0 => spoil_length(random, &mut arrivals),
                1 => spoil_length(random, &mut matches),
                _ => spoil_length(random, &mut exhaled),
            },
            6 => spoil_arrivals(random, ports, &mut arrivals),
            _ => w.next = u32::MAX,
        }
        let before = (w, table.clone(), matches.clone(), exhaled.clone());
        let (number, after) = slot(w, &mut table, &arrivals, &mut matches, &mut exhaled);
        assert_eq!(number, expected);
        assert_eq!(before, (after, table, matches, exhaled));
    }

    /// A fresh start that must be refused; the run goes on with its earlier numbers.
    fn refused_start(&mut self, random: &mut Random) {
        let mut wanted = self.numbers;
        match random.index(2) {
            0 => wanted.ports = random.pick(&[0, 17]),
            _ => wanted.speedup = random.pick(&[0, 9]),
        }
        let before = self.table.clone();
        let (number, after) = fresh_start(wanted, &mut self.table);
        assert!(number == 1 || number == 2);
        assert_eq!((after, &self.table), (wanted, &before));
    }
}

/// A run of random traffic that changes now and then, emptied at the end.
fn whole_run(random: &mut Random, ports: u32, speedup: u32) -> Run {
    let short = random.between(1, 3 * ports) as usize;
    let records = random.pick(&[short, 64, 256, MOST_RECORDS]);
    let mut run = Run::start(random, ports, speedup, records);
    let mut traffic = Traffic::random(random, ports);
    for _ in 0..random.between(1, 80) {
        if random.one_in(10) {
            traffic = Traffic::random(random, ports);
        }
        if random.one_in(8) {
            run.refused_call(random);
        }
        if random.one_in(20) {
            run.refused_start(random);
        }
        let arrivals = valid_arrivals(random, ports, traffic);
        run.slot(random, &arrivals);
    }
    for _ in 0..records {
        run.slot(random, &vec![0; 2 * ports as usize]);
        if run.live() == 0 {
            break;
        }
    }
    assert_eq!(run.live(), 0);
    run
}

#[test]
fn every_cell_leaves_when_due_at_a_speedup_of_three_or_more() {
    let mut random = Random::new(12);
    let mut emitted = 0;
    for (ports, speedup) in (1..=16).flat_map(|ports| (3..=8).map(move |speedup| (ports, speedup)))
    {
        for _ in 0..6 {
            let run = whole_run(&mut random, ports, speedup);
            assert_eq!(run.amiss, 0, "N {ports}, S {speedup}");
            emitted += run.emitted;
        }
    }
    assert!(emitted > 50_000, "{emitted}");
}

#[test]
fn some_cell_is_late_at_a_speedup_of_one() {
    let mut random = Random::new(13);
    let amiss: usize = (0..20).map(|_| whole_run(&mut random, 4, 1).amiss).sum();
    assert!(amiss > 0);
}
