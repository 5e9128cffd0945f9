//! The live cells as keys, those that wait from the front and those that are ready from the back.

use super::key::{self, Key};
use super::live::Live;
use super::Record;

pub struct Cells<const MOST: usize> {
    keys: [Key; MOST],
    /// Where the waiting cells end, and where the ready ones begin.
    front: usize,
    back: usize,
}

impl<const MOST: usize> Cells<MOST> {
    pub fn new() -> Self {
        Cells {
            keys: [0; MOST],
            front: 0,
            back: MOST,
        }
    }

    pub fn waiting(&mut self) -> &mut [Key] {
        &mut self.keys[..self.front]
    }

    pub fn ready(&self) -> &[Key] {
        &self.keys[self.back..]
    }

    pub fn wait(&mut self, key: Key) {
        self.keys[self.front] = key;
        self.front += 1;
    }

    /// Takes all live cells: whether no two have the same slot and input. Each is written to both
    /// ends, and one end moves: a branch on the place would be guessed wrong half of the time.
    pub fn gather<const WORDS: usize>(&mut self, table: &[Record], live: &Live<WORDS>) -> bool {
        let mut marks = [0u32; MOST];
        let mut again = Vec::new();
        let (mut front, mut back) = (0, MOST - 1);
        for (records, (&word, base)) in table
            .chunks(64)
            .zip(live.bits.iter().zip((0..).step_by(64)))
        {
            let mut word = word;
            while word != 0 {
                let k = word.trailing_zeros() as usize;
                word &= word - 1;
                let [place, input, output, entered, _] = records[k];
                let key = key::of(entered, input, output, base + k);
                let mark = &mut marks[entered as usize % MOST];
                let before = *mark;
                *mark |= 1 << input;
                if before >> input & 1 != 0 {
                    again.push(key::entry(key));
                }
                self.keys[front % MOST] = key;
                self.keys[back % MOST] = key;
                front += place as usize & 1;
                back = back.wrapping_sub(place as usize >> 1);
            }
        }
        (self.front, self.back) = (front, back.wrapping_add(1));
        again.is_empty() || !self.has_twin(&again)
    }

    /// Whether some cell has the slot and input of another: `again` are those whose mark was met before,
    /// by their twin or by a cell so many slots away. Every cell is looked up in marks of another kind.
    #[cold]
    fn has_twin(&self, again: &[u64]) -> bool {
        let mut marks = [0u64; 256];
        let place = |entry: u64| {
            let hash = entry.wrapping_mul(0x9E37_79B9_7F4A_7C15) >> 50;
            (hash as usize / 64, 1 << (hash % 64))
        };
        for &entry in again {
            let (at, bit) = place(entry);
            marks[at] |= bit;
        }
        let mut met = 0;
        for &key in self.keys[..self.front].iter().chain(self.ready()) {
            let entry = key::entry(key);
            let (at, bit) = place(entry);
            if marks[at] & bit != 0 {
                met += again.iter().filter(|&&other| other == entry).count();
            }
        }
        met > again.len()
    }
}
