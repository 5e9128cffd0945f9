//! The fastest slot that plain Rust was found to give. Blocks of free records are skipped; one pass over
//! the live ones parts those that wait from those that are ready, without a branch on the place. A phase
//! picks by ranks as bits where not too many cells wait, and from queues by input and output otherwise.

mod cells;
mod key;
mod live;
mod queues;
mod ranks;

use crate::checks::{lists, sizes, Numbers, MOST_PORTS, MOST_RECORDS, READY, WAITING, WIDTH};
use crate::Call;
use cells::Cells;
use key::{Key, NO_CELL};
use live::Live;
use queues::Queues;
use ranks::Ranks;

type Record = [u32; WIDTH];

/// So many cells are kept in less room, which is sooner cleared.
const FEW: usize = 64;
/// Up to so many waiting cells it is faster to sort them once than to keep queues.
const SORTED: usize = 256;

/// What finds the match of a phase among the waiting cells.
trait Phases {
    /// Hands over the cells of the next match, which wait no longer.
    fn phase(&mut self, take: impl FnMut(Key));
}

/// What each output has in its unit: how many cells at the reading, and the oldest so far.
struct Units {
    readings: [u32; MOST_PORTS],
    oldest: [Key; MOST_PORTS],
}

/// What a slot is handed once its sizes are right, the table as records.
struct Slot<'a> {
    w: Numbers,
    table: &'a mut [Record],
    arrivals: &'a [u32],
    matches: &'a mut [u32],
    exhaled: &'a mut [u32],
}

pub fn slot(call: Call) -> u32 {
    let w = Numbers::of(call.numbers);
    let number = sizes(w, call.table);
    if number != 0 {
        return number;
    }
    let mut slot = Slot {
        w,
        table: call.table.as_chunks_mut().0,
        arrivals: call.arrivals,
        matches: call.matches,
        exhaled: call.exhaled,
    };
    let number = if slot.table.len() <= FEW {
        slot.run::<1>()
    } else {
        slot.run::<{ MOST_RECORDS / 64 }>()
    };
    call.numbers[2] += u32::from(number == 0);
    number
}

impl Slot<'_> {
    /// For a table of no more records than so many words have bits.
    fn run<const WORDS: usize>(&mut self) -> u32 {
        let Some(live) = Live::<WORDS>::of(self.w, self.table) else {
            return 4;
        };
        if self.table.len().min(live.count + MOST_PORTS) <= FEW {
            self.run_with::<WORDS, FEW>(&live)
        } else {
            self.run_with::<WORDS, MOST_RECORDS>(&live)
        }
    }

    /// For no more than `MOST` cells, those that arrive among them.
    fn run_with<const WORDS: usize, const MOST: usize>(&mut self, live: &Live<WORDS>) -> u32 {
        let mut cells = Cells::<MOST>::new();
        if !cells.gather(self.table, live) {
            return 4;
        }
        let free = self.table.len() - live.count;
        let number = lists(self.w, free, self.arrivals, self.matches, self.exhaled);
        if number != 0 {
            return number;
        }
        self.inhale(live, &mut cells);
        let Units {
            readings,
            mut oldest,
        } = read(cells.ready());
        let waiting = cells.waiting();
        if waiting.len() <= FEW {
            self.transfer(&mut Ranks::<1>::of(waiting, &readings), &mut oldest);
        } else if waiting.len() <= SORTED {
            self.transfer(&mut Ranks::<4>::of(waiting, &readings), &mut oldest);
        } else {
            self.transfer(&mut Queues::<MOST>::of(waiting, &readings), &mut oldest);
        }
        self.exhale(&oldest);
        0
    }

    fn inhale<const WORDS: usize, const MOST: usize>(
        &mut self,
        live: &Live<WORDS>,
        cells: &mut Cells<MOST>,
    ) {
        let mut rooms = live.rooms();
        for (input, arrival) in (0..).zip(self.arrivals.chunks_exact(2)) {
            if arrival[0] == 0 {
                continue;
            }
            let Some(k) = rooms.next() else { return };
            let output = arrival[0] - 1;
            self.table[k] = [WAITING, input, output, self.w.next, arrival[1]];
            cells.wait(key::of(self.w.next, input, output, k));
        }
    }

    fn transfer(&mut self, by: &mut impl Phases, oldest: &mut [Key; MOST_PORTS]) {
        self.matches.fill(0);
        for words in self.matches.chunks_exact_mut(self.w.ports as usize) {
            let mut moved = false;
            by.phase(|key| {
                let output = key::output(key);
                words[output] = key::input(key) as u32 + 1;
                self.table[key::record(key)][0] = READY;
                oldest[output] = oldest[output].min(key);
                moved = true;
            });
            if !moved {
                return;
            }
        }
    }

    fn exhale(&mut self, oldest: &[Key; MOST_PORTS]) {
        for (&key, words) in oldest.iter().zip(self.exhaled.chunks_exact_mut(4)) {
            if key == NO_CELL {
                words.fill(0);
                continue;
            }
            let record = &mut self.table[key::record(key)];
            words.copy_from_slice(&[1, record[1], record[3], record[4]]);
            *record = [0; WIDTH];
        }
    }
}

fn read(ready: &[Key]) -> Units {
    let mut units = Units {
        readings: [0; MOST_PORTS],
        oldest: [NO_CELL; MOST_PORTS],
    };
    for &key in ready {
        let output = key::output(key);
        units.readings[output] += 1;
        units.oldest[output] = units.oldest[output].min(key);
    }
    units
}

/// The members of a set of ports.
fn ports(mut set: u16) -> impl Iterator<Item = usize> {
    std::iter::from_fn(move || {
        let port = (set != 0).then(|| set.trailing_zeros() as usize);
        set &= set.wrapping_sub(1);
        port
    })
}
