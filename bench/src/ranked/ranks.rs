//! Not too many waiting cells, ranked once: a set of ranks is bits, its first the lowest.

use super::key::{self, Key};
use super::{ports, Phases};
use crate::checks::MOST_PORTS;

/// The cells of 64 ranks that follow one another.
#[derive(Clone, Copy)]
struct Ranked {
    waiting: u64,
    of_input: [u64; MOST_PORTS],
    of_output: [u64; MOST_PORTS],
}

pub struct Ranks<'a, const WORDS: usize> {
    keys: &'a [Key],
    words: [Ranked; WORDS],
}

impl<'a, const WORDS: usize> Ranks<'a, WORDS> {
    /// For no more cells than `WORDS` have bits.
    pub fn of(waiting: &'a mut [Key], readings: &[u32; MOST_PORTS]) -> Self {
        for key in waiting.iter_mut() {
            *key = key::with_reading(*key, readings[key::output(*key)]);
        }
        waiting.sort_unstable();
        let none = Ranked {
            waiting: 0,
            of_input: [0; MOST_PORTS],
            of_output: [0; MOST_PORTS],
        };
        let mut words = [none; WORDS];
        for (word, keys) in words.iter_mut().zip(waiting.chunks(64)) {
            for (rank, &key) in keys.iter().enumerate() {
                word.waiting |= 1 << rank;
                word.of_input[key::input(key)] |= 1 << rank;
                word.of_output[key::output(key)] |= 1 << rank;
            }
        }
        Ranks {
            keys: waiting,
            words,
        }
    }
}

impl<const WORDS: usize> Phases for Ranks<'_, WORDS> {
    fn phase(&mut self, mut take: impl FnMut(Key)) {
        let (mut inputs, mut outputs) = (0, 0);
        for (word, keys) in self.words.iter_mut().zip(self.keys.chunks(64)) {
            let taken = union(&word.of_input, inputs) | union(&word.of_output, outputs);
            let mut open = word.waiting & !taken;
            while open != 0 {
                let rank = open.trailing_zeros() as usize;
                let key = keys[rank];
                let (input, output) = (key::input(key), key::output(key));
                word.waiting &= !(1 << rank);
                open &= !(word.of_input[input] | word.of_output[output]);
                inputs |= 1 << input;
                outputs |= 1 << output;
                take(key::without_reading(key));
            }
        }
    }
}

fn union(sets: &[u64; MOST_PORTS], of: u16) -> u64 {
    ports(of).fold(0, |all, port| all | sets[port])
}
