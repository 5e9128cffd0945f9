//! Fit tables of chosen cells: so many of this kind and so many of that, of chosen slots and in a
//! chosen order.

use std::collections::BTreeSet;

use super::{tag, Random};
use crate::edge::RECORD_WORDS;

pub type Record = [u32; RECORD_WORDS];

/// What is wanted of a cell; any input or output where none is named.
#[derive(Clone, Copy, PartialEq, Eq, Debug)]
pub struct Wanted {
    pub place: u32,
    pub input: Option<u32>,
    pub output: Option<u32>,
}

impl Wanted {
    pub const WAITING: Wanted = Wanted {
        place: 1,
        input: None,
        output: None,
    };

    pub fn ready_for(output: u32) -> Wanted {
        Wanted {
            place: 2,
            input: None,
            output: Some(output),
        }
    }

    /// Waiting or ready, as it happens.
    pub fn live(random: &mut Random, input: Option<u32>) -> Wanted {
        Wanted {
            place: random.between(1, 2),
            input,
            output: None,
        }
    }
}

/// Slots of entry: so many from this first one on, so far apart.
#[derive(Clone, Copy, PartialEq, Eq, Debug)]
pub struct Slots {
    pub first: u32,
    pub apart: u32,
    pub count: u32,
}

impl Slots {
    /// Every slot before slot t.
    pub fn before(next: u32) -> Slots {
        Slots {
            first: 0,
            apart: 1,
            count: next,
        }
    }

    /// The lowest t that all of them lie before.
    pub fn next(self) -> u32 {
        self.first + self.apart * (self.count - 1) + 1
    }

    fn any(self, random: &mut Random) -> u32 {
        self.first + self.apart * random.between(0, self.count - 1)
    }
}

/// Records of such cells in any order, no two with the same slot and input, for which there must be
/// slots enough.
pub fn cells(random: &mut Random, ports: u32, slots: Slots, wanted: &[Wanted]) -> Vec<Record> {
    let mut entries = BTreeSet::new();
    let mut record = |cell: &Wanted| loop {
        let input = cell.input.unwrap_or(random.between(0, ports - 1));
        let entered = slots.any(random);
        if entries.insert((entered, input)) {
            let output = cell.output.unwrap_or(random.between(0, ports - 1));
            return [cell.place, input, output, entered, tag(random)];
        }
    };
    let mut cells: Vec<Record> = wanted.iter().map(&mut record).collect();
    random.shuffle(&mut cells);
    cells
}

/// A table with these cells in this order, and free records anywhere between them.
pub fn spread(random: &mut Random, records: usize, cells: &[Record]) -> Vec<u32> {
    let mut places: Vec<usize> = (0..records).collect();
    random.shuffle(&mut places);
    places.truncate(cells.len());
    places.sort_unstable();
    let mut table = vec![[0; RECORD_WORDS]; records];
    for (place, cell) in places.into_iter().zip(cells) {
        table[place] = *cell;
    }
    table.concat()
}
