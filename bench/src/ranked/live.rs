//! Which records are live, found without a look at each one; and what each record must meet by itself.

use super::Record;
use crate::checks::{Numbers, WIDTH};

const BLOCK: usize = 8;

type Block = [Record; BLOCK];
/// A byte for each block of so many words of records.
type Bytes<const WORDS: usize> = [[u8; BLOCK]; WORDS];

/// The live records as bits, and their number.
pub struct Live<const WORDS: usize> {
    pub bits: [u64; WORDS],
    pub count: usize,
}

impl<const WORDS: usize> Live<WORDS> {
    /// Nothing where a record is not as it must be by itself.
    pub fn of(w: Numbers, table: &[Record]) -> Option<Self> {
        let (blocks, rest) = table.as_chunks();
        let (touched, count) = touched::<WORDS>(blocks);
        let touched = touched.as_flattened()[..count].iter();
        let touched = touched.map(|&b| usize::from(b));
        let mut bytes: Bytes<WORDS> = [[0; BLOCK]; WORDS];
        let live = bytes.as_flattened_mut();
        let mut check = Check::of(w);
        for b in touched.clone() {
            live[b] = live_in(&blocks[b]);
            check.note_stray(&blocks[b], live[b]);
        }
        // In a loop of its own the compiler compares the four words of a record at once.
        for b in touched {
            check.note_above(&blocks[b]);
        }
        if !rest.is_empty() {
            let mut last = [[0; WIDTH]; BLOCK];
            last[..rest.len()].copy_from_slice(rest);
            live[blocks.len()] = live_in(&last);
            check.note_stray(&last, live[blocks.len()]);
            check.note_above(&last);
        }
        let live = Live::of_bytes(&bytes);
        (check.is_passed() && (w.next > 0 || live.count == 0)).then_some(live)
    }

    fn of_bytes(bytes: &Bytes<WORDS>) -> Self {
        let bits = bytes.map(u64::from_le_bytes);
        let count = bits.iter().map(|word| word.count_ones() as usize).sum();
        Live { bits, count }
    }

    /// The free records, upwards; behind the last one of the table there are more.
    pub fn rooms(&self) -> impl Iterator<Item = usize> + '_ {
        let (mut n, mut free) = (0, !self.bits[0]);
        std::iter::from_fn(move || {
            while free == 0 {
                n += 1;
                free = !*self.bits.get(n)?;
            }
            let room = 64 * n + free.trailing_zeros() as usize;
            free &= free - 1;
            Some(room)
        })
    }
}

/// The blocks in which some word is not zero, and how many they are. No branch hangs on the words.
fn touched<const WORDS: usize>(blocks: &[Block]) -> (Bytes<WORDS>, usize) {
    let mut touched = [[0; BLOCK]; WORDS];
    let list = touched.as_flattened_mut();
    let mut count = 0;
    for (block, b) in blocks.iter().zip(0..) {
        list[count] = b;
        let any = block.as_flattened().iter().fold(0, |any, word| any | word);
        count += usize::from(any != 0);
    }
    (touched, count)
}

fn live_in(block: &Block) -> u8 {
    block
        .iter()
        .rev()
        .fold(0, |bits, record| 2 * bits + u8::from(record[0] != 0))
}

/// What each record must meet by itself, and whether one did not.
struct Check {
    /// The largest place, input, output and slot; and which of the four some record exceeds.
    most: [u32; 4],
    above: [u32; 4],
    /// The words of free records, all in one.
    stray: u32,
}

impl Check {
    /// At slot 0 no record may be live; that is left to be asked.
    fn of(w: Numbers) -> Check {
        let port = w.ports - 1;
        Check {
            most: [2, port, port, w.next.saturating_sub(1)],
            above: [0; 4],
            stray: 0,
        }
    }

    fn note_above(&mut self, block: &Block) {
        for record in block {
            for ((above, &most), &word) in self.above.iter_mut().zip(&self.most).zip(record) {
                *above |= u32::from(word > most);
            }
        }
    }

    fn note_stray(&mut self, block: &Block, live: u8) {
        if live == u8::MAX {
            return;
        }
        for record in block {
            let rest = record[1] | record[2] | record[3] | record[4];
            self.stray |= if record[0] == 0 { rest } else { 0 };
        }
    }

    fn is_passed(&self) -> bool {
        self.above == [0; 4] && self.stray == 0
    }
}
