//! One slot on sets of cells: inhale, reading, transfer phases, exhale (document 01, "One slot").

use std::collections::{BTreeMap, BTreeSet};
use std::mem;

use crate::cells::{Cells, Content, Identity, Input, Output, Slot};
use crate::matching::{matched, Reading};

/// A fit table: the cells of the input units, those of the output units, and the free records.
#[derive(Default)]
pub struct Held {
    pub waiting: Cells,
    pub ready: Cells,
    pub free: BTreeSet<usize>,
}

/// An arriving cell, without the input that brings it.
pub struct Arrival {
    pub output: Output,
    pub tag: u32,
}

pub type Arrivals = BTreeMap<Input, Arrival>;

/// What a slot shows: the input served for each output, phase by phase, and the emitted cells.
pub struct Shown {
    pub matches: Vec<BTreeMap<Output, Input>>,
    pub exhaled: BTreeMap<Output, (Identity, Content)>,
}

impl Held {
    /// Runs slot `now`. There must be a free record for each arrival.
    pub fn slot(&mut self, now: Slot, speedup: u32, arrivals: &Arrivals) -> Shown {
        self.inhale(now, arrivals);
        let reading = Reading::of(&self.ready);
        let matches = (0..speedup).map(|_| self.transfer(&reading)).collect();
        let exhaled = self.exhale();
        Shown { matches, exhaled }
    }

    fn inhale(&mut self, now: Slot, arrivals: &Arrivals) {
        for (&input, arrival) in arrivals {
            let Some(record) = self.free.pop_first() else {
                return;
            };
            let identity = Identity {
                entered: now,
                input,
            };
            let content = Content {
                output: arrival.output,
                tag: arrival.tag,
                record,
            };
            self.waiting.insert(identity, content);
        }
    }

    fn transfer(&mut self, reading: &Reading) -> BTreeMap<Output, Input> {
        let chosen = matched(&self.waiting, reading);
        let (moving, staying): (Cells, Cells) = mem::take(&mut self.waiting)
            .into_iter()
            .partition(|(identity, _)| chosen.contains(identity));
        let served = moving
            .iter()
            .map(|(identity, content)| (content.output, identity.input))
            .collect();
        self.waiting = staying;
        self.ready.extend(moving);
        served
    }

    /// The ready cells stand in order of age, so the first met for an output is the one it emits.
    fn exhale(&mut self) -> BTreeMap<Output, (Identity, Content)> {
        let mut emitted = BTreeMap::new();
        for (&identity, &content) in &self.ready {
            emitted.entry(content.output).or_insert((identity, content));
        }
        for (identity, content) in emitted.values() {
            self.ready.remove(identity);
            self.free.insert(content.record);
        }
        emitted
    }
}
