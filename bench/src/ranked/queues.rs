//! Many waiting cells, not sorted: of those that share input and output only the oldest can be next.

use super::key::{self, Key, NO_CELL};
use super::{ports, Phases};
use crate::checks::MOST_PORTS;

const QUEUES: usize = MOST_PORTS * MOST_PORTS;

pub struct Queues<'a, const MOST: usize> {
    waiting: &'a [Key],
    /// The oldest cell of each queue, if it has one.
    heads: [Key; QUEUES],
    /// One more than some cell of each queue, and for each cell than another of its queue; 0 ends.
    first: [u16; QUEUES],
    next: [u16; MOST],
    /// Sets of outputs with one reading, by rising reading.
    groups: [u16; MOST_PORTS],
}

impl<'a, const MOST: usize> Queues<'a, MOST> {
    pub fn of(waiting: &'a [Key], readings: &[u32; MOST_PORTS]) -> Self {
        let mut queues = Queues {
            waiting,
            heads: [NO_CELL; QUEUES],
            first: [0; QUEUES],
            next: [0; MOST],
            groups: groups(readings),
        };
        for ((&key, next), one_more) in waiting.iter().zip(&mut queues.next).zip(1..) {
            let queue = key::queue(key);
            queues.heads[queue] = queues.heads[queue].min(key);
            *next = queues.first[queue];
            queues.first[queue] = one_more;
        }
        queues
    }

    /// The oldest cell for the output from one of these inputs.
    fn oldest(&self, output: usize, inputs: u16) -> Key {
        ports(inputs).fold(NO_CELL, |oldest, input| {
            oldest.min(self.heads[MOST_PORTS * input + output])
        })
    }

    /// The next of the queue becomes its head.
    fn remove(&mut self, head: Key) {
        let queue = key::queue(head);
        let mut oldest = NO_CELL;
        let mut one_more = self.first[queue];
        while let Some(n) = usize::from(one_more).checked_sub(1) {
            let key = self.waiting[n];
            oldest = oldest.min(if key > head { key } else { NO_CELL });
            one_more = self.next[n];
        }
        self.heads[queue] = oldest;
    }

    /// The cells of the match for outputs of one reading, from these inputs; gives the inputs left.
    fn group(&mut self, mut outputs: u16, mut inputs: u16, take: &mut impl FnMut(Key)) -> u16 {
        let mut best = [NO_CELL; MOST_PORTS];
        for output in ports(outputs) {
            best[output] = self.oldest(output, inputs);
        }
        while let Some(key) = ports(outputs).map(|output| best[output]).min() {
            if key == NO_CELL {
                break;
            }
            inputs &= !(1 << key::input(key));
            outputs &= !(1 << key::output(key));
            self.remove(key);
            for output in ports(outputs) {
                if key::input(best[output]) == key::input(key) {
                    best[output] = self.oldest(output, inputs);
                }
            }
            take(key);
        }
        inputs
    }
}

impl<const MOST: usize> Phases for Queues<'_, MOST> {
    fn phase(&mut self, mut take: impl FnMut(Key)) {
        let mut inputs = u16::MAX;
        for outputs in self.groups {
            inputs = self.group(outputs, inputs, &mut take);
        }
    }
}

/// Each reading stands above its output in one word to be sorted.
fn groups(readings: &[u32; MOST_PORTS]) -> [u16; MOST_PORTS] {
    let mut order: [u32; MOST_PORTS] = std::array::from_fn(|o| readings[o] << 4 | o as u32);
    order.sort_unstable();
    let mut groups = [0; MOST_PORTS];
    let (mut group, mut before) = (0, order[0] >> 4);
    for word in order {
        group += usize::from(word >> 4 != before);
        before = word >> 4;
        groups[group % MOST_PORTS] |= 1 << (word % 16);
    }
    groups
}
