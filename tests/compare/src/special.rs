//! Calls that go every way through the library's slot: long queues from one input or for one output, equal
//! readings, blocks of free records, tables of a stretch and a record more or less, marks met twice. Random calls
//! go some of these ways seldom, or with few cells only.

use std::cmp::Reverse;

use second::generate::{
    cells, damage_table, spread, tag, Call, Damage, Random, Record, Slots, Wanted,
};
use second::{Numbers, RECORD_WORDS};

use crate::both::{self, Tally};

const SEED: u64 = 1_024;
const PORTS: [u32; 5] = [1, 2, 4, 15, 16];
const SPEEDUPS: [u32; 3] = [1, 3, 8];
const SHORT: [usize; 6] = [1, 7, 8, 9, 63, 64];
/// Around the length of the stretches in which the library passes over the table.
const STRETCHES: [usize; 5] = [255, 256, 257, 264, 513];
const LONG: [usize; 2] = [1_023, 1_024];
/// Short tables cost little, so they have more variants.
const OF_EACH_SHORT: usize = 4;
const MOST_CELLS: usize = 1_000;
/// Slots so far apart have the same mark where the library looks for twins.
const SAME_MARK: u32 = 1_024;
/// So many free records the library passes over at once.
const BLOCK: usize = 8;
const LEAST_ACCEPTED: u64 = 40_000;

pub fn compare() {
    let mut random = Random::new(SEED);
    let mut tally = Tally::default();
    for ports in PORTS {
        for speedup in SPEEDUPS {
            let short = SHORT.repeat(OF_EACH_SHORT);
            for records in short.into_iter().chain(STRETCHES).chain(LONG) {
                let mut cases = Cases {
                    random: &mut random,
                    tally: &mut tally,
                    ports,
                    speedup,
                    records,
                };
                cases.all();
            }
        }
    }
    let (all, accepted) = (tally.slots(), tally.accepted());
    println!("{all} special calls alike in every word, {accepted} of them accepted");
    assert!(accepted >= LEAST_ACCEPTED, "too few are accepted");
}

/// The order of the cells' ages by rising record.
#[derive(Clone, Copy)]
enum Order {
    Rising,
    Falling,
    Any,
}

impl Order {
    /// Cells that come in any order are put in this one.
    fn arrange(self, cells: &mut [Record]) {
        let age = |cell: &Record| (cell[3], cell[1]);
        match self {
            Order::Rising => cells.sort_by_key(age),
            Order::Falling => cells.sort_by_key(|cell| Reverse(age(cell))),
            Order::Any => (),
        }
    }
}

/// The cases of one size of switch and table.
struct Cases<'a> {
    random: &'a mut Random,
    tally: &'a mut Tally,
    ports: u32,
    speedup: u32,
    records: usize,
}

impl Cases<'_> {
    fn all(&mut self) {
        self.queues();
        self.readings();
        self.few_waiting();
        self.room();
        self.free_blocks();
        self.marks_met_twice();
    }

    /// Waiting cells all from one input, all for one output, both, or neither.
    fn queues(&mut self) {
        let (input, output) = (Some(self.any_port()), Some(self.any_port()));
        for (input, output) in [(None, None), (input, None), (None, output), (input, output)] {
            let cell = Wanted {
                input,
                output,
                ..Wanted::WAITING
            };
            for waiting in self.amounts() {
                for order in [Order::Rising, Order::Falling, Order::Any] {
                    self.accepted(&vec![cell; waiting], order);
                }
            }
        }
    }

    /// Readings that are all equal, so that age alone decides, and readings of which no two are.
    fn readings(&mut self) {
        let ports = self.ports as usize;
        for ready in [0, 1, 2, self.records / ports / 2] {
            self.waiting_beside(&vec![ready; ports]);
        }
        let mut different: Vec<usize> = (0..ports).collect();
        self.waiting_beside(&different);
        different.reverse();
        self.waiting_beside(&different);
        self.random.shuffle(&mut different);
        self.waiting_beside(&different);
    }

    /// Waiting cells beside so many ready ones for each output, where the table has records enough.
    fn waiting_beside(&mut self, readings: &[usize]) {
        let ready: Vec<Wanted> = (0..)
            .zip(readings)
            .flat_map(|(output, &count)| vec![Wanted::ready_for(output); count])
            .collect();
        let Some(left) = self.records.checked_sub(ready.len()) else {
            return;
        };
        for waiting in [left / 4, left / 2, left] {
            let wanted = [ready.as_slice(), &vec![Wanted::WAITING; waiting]].concat();
            self.accepted(&wanted, Order::Any);
        }
    }

    /// No waiting cell or one, beside ready ones or none.
    fn few_waiting(&mut self) {
        for waiting in [0, 1] {
            for live in self.amounts() {
                let mut wanted = vec![Wanted::WAITING; waiting];
                while wanted.len() < live {
                    wanted.push(Wanted::ready_for(self.any_port()));
                }
                self.accepted(&wanted, Order::Any);
            }
        }
    }

    /// Tables full, nearly full or all free. As many cells as there is room for may come, but not one more.
    fn room(&mut self) {
        for live in [0, 1, 2, self.records].map(|free| self.records.saturating_sub(free)) {
            let wanted = self.live_cells(live, None);
            let (next, table) = self.table(&wanted, 1, Order::Any);
            let room = self.records - live;
            for coming in [0, room, room + 1].map(|coming| coming.min(self.ports as usize)) {
                let number = if coming > room { 8 } else { 0 };
                self.gives(number, next, &table, coming);
            }
        }
    }

    /// A block of free records at the start, in the middle and at the end, with free and live ones around it.
    fn free_blocks(&mut self) {
        let Some(others) = self.records.checked_sub(BLOCK) else {
            return;
        };
        for start in [0, others / BLOCK / 2 * BLOCK, others] {
            for live in [0, others / 2, others] {
                let wanted = self.live_cells(live, None);
                // None of slot 0: that is left to a cell in the block.
                let slots = Slots {
                    first: 1,
                    ..Slots::before(live as u32 + 1)
                };
                let cells = cells(self.random, self.ports, slots, &wanted);
                let mut table = spread(self.random, others, &cells);
                let at = start * RECORD_WORDS;
                table.splice(at..at, [0; BLOCK * RECORD_WORDS]);
                self.gives(0, slots.next(), &table, BLOCK.min(self.ports as usize));
                self.nearly_free_blocks(slots.next(), &table, at);
            }
        }
    }

    /// One word of the block is not zero. Only if it is a place, and a right one, the table is still fit.
    fn nearly_free_blocks(&mut self, next: u32, free: &[u32], at: usize) {
        for word in 0..BLOCK * RECORD_WORDS {
            let not_zero = self.random.pick(&[1, 2, 3, u32::MAX]);
            let mut table = free.to_vec();
            table[at + word] = not_zero;
            let is_cell = word % RECORD_WORDS == 0 && not_zero <= 2;
            self.gives(if is_cell { 0 } else { 4 }, next, &table, 0);
        }
    }

    /// Cells of one input or of any, in slots that share marks: fit as they are, and not with a twin.
    fn marks_met_twice(&mut self) {
        for input in [None, Some(self.any_port())] {
            for live in self.amounts() {
                for apart in [SAME_MARK / 2, SAME_MARK] {
                    let wanted = self.live_cells(live, input);
                    let (next, mut table) = self.table(&wanted, apart, Order::Any);
                    self.gives(0, next, &table, 0);
                    self.outer_twins(next, &table);
                    if damage_table(self.random, Damage::Twins, self.ports, next, &mut table) {
                        self.gives(4, next, &table, 0);
                    }
                }
            }
        }
    }

    /// Twins among the first and the last cells, where a look at the records begins and ends.
    fn outer_twins(&mut self, next: u32, fit: &[u32]) {
        let live: Vec<usize> = (0..fit.len())
            .step_by(RECORD_WORDS)
            .filter(|&at| fit[at] != 0)
            .collect();
        let [first, .., last] = live[..] else {
            return;
        };
        let (second, last_but_one) = (live[1], live[live.len() - 2]);
        for (one, other) in [(first, last), (first, second), (last_but_one, last)] {
            let mut table = fit.to_vec();
            for input_or_slot in [1, 3] {
                table[other + input_or_slot] = table[one + input_or_slot];
            }
            self.gives(4, next, &table, 0);
        }
    }

    fn any_port(&mut self) -> u32 {
        self.random.between(0, self.ports - 1)
    }

    /// How many cells the table may have: none, few, half of it, nearly all.
    fn amounts(&self) -> [usize; 5] {
        [0, 1, 2, self.records / 2, MOST_CELLS].map(|cells| cells.min(self.records))
    }

    fn live_cells(&mut self, count: usize, input: Option<u32>) -> Vec<Wanted> {
        (0..count)
            .map(|_| Wanted::live(self.random, input))
            .collect()
    }

    /// A table with such cells, which is accepted as long as there is room for those that come.
    fn accepted(&mut self, wanted: &[Wanted], order: Order) {
        let apart = self.random.pick(&[1, 1, 3, SAME_MARK]);
        let (next, table) = self.table(wanted, apart, order);
        let room = self.records - wanted.len();
        let coming = self.random.index(room.min(self.ports as usize) + 1);
        self.gives(0, next, &table, coming);
    }

    /// The next slot, and a table with such cells of slots so far apart.
    fn table(&mut self, wanted: &[Wanted], apart: u32, order: Order) -> (u32, Vec<u32>) {
        let slots = self.slots(wanted, apart);
        let mut cells = cells(self.random, self.ports, slots, wanted);
        order.arrange(&mut cells);
        (slots.next(), spread(self.random, self.records, &cells))
    }

    /// Just enough slots for these cells, or more: the first there are, the last, or those on both sides of the
    /// middle, where a word's highest bit changes.
    fn slots(&mut self, wanted: &[Wanted], apart: u32) -> Slots {
        let live = wanted.len() as u32;
        let of_any_input = wanted.iter().all(|cell| cell.input.is_none());
        let each = if of_any_input { self.ports } else { 1 };
        let enough = live.div_ceil(each).max(1);
        let count = self.random.pick(&[enough, enough + 1, 4 * enough]);
        let span = apart * count;
        Slots {
            first: self
                .random
                .pick(&[0, (1 << 31) - span / 2, u32::MAX - 1 - span]),
            apart,
            count,
        }
    }

    /// One call with this table, in which so many cells come.
    fn gives(&mut self, number: u32, next: u32, table: &[u32], coming: usize) {
        let numbers = Numbers {
            ports: self.ports,
            speedup: self.speedup,
            next,
        };
        let arrivals = self.arrivals(coming);
        let call = Call::new(self.random, numbers, table.to_vec(), arrivals);
        assert_eq!(both::slot(&call, self.tally).0, number, "on {call:?}");
    }

    /// So many inputs bring a cell.
    fn arrivals(&mut self, coming: usize) -> Vec<u32> {
        let mut inputs: Vec<bool> = (0..self.ports as usize).map(|n| n < coming).collect();
        self.random.shuffle(&mut inputs);
        inputs
            .into_iter()
            .flat_map(|brings| {
                let output = self.any_port();
                [if brings { output + 1 } else { 0 }, tag(self.random)]
            })
            .collect()
    }
}
