//! The switch's numbers, and its two calls.

use crate::{words, Refusal, Table};

const ARRIVAL_WORDS: usize = 2;
const EXHALED_WORDS: usize = 4;

/// A cell that an input brings.
#[derive(Clone, Copy, PartialEq, Eq, Debug)]
pub struct Arrival {
    pub output: u32,
    pub tag: u32,
}

/// A cell that an output emits.
#[derive(Clone, Copy, PartialEq, Eq, Debug)]
pub struct Emitted {
    pub output: u32,
    pub input: u32,
    pub entered: u32,
    pub tag: u32,
}

/// A move of a transfer phase: the output, and the input that it served.
#[derive(Clone, Copy, PartialEq, Eq, Debug)]
pub struct Served {
    pub output: u32,
    pub input: u32,
}

/// What an accepted slot wrote.
#[derive(Clone, PartialEq, Eq, Debug)]
pub struct Outcome {
    ports: usize,
    matches: Vec<u32>,
    exhaled: Vec<u32>,
}

impl Outcome {
    /// The emitted cells, by rising output.
    pub fn emitted(&self) -> impl Iterator<Item = Emitted> + '_ {
        (0..)
            .zip(self.exhaled.chunks_exact(EXHALED_WORDS))
            .filter(|(_, words)| words[0] != 0)
            .map(|(output, words)| Emitted {
                output,
                input: words[1],
                entered: words[2],
                tag: words[3],
            })
    }

    /// The moves of each transfer phase, by rising output.
    pub fn phases(&self) -> impl Iterator<Item = Vec<Served>> + '_ {
        self.matches.chunks_exact(self.ports).map(moves)
    }
}

fn moves(words: &[u32]) -> Vec<Served> {
    (0..)
        .zip(words)
        .filter_map(|(output, word)| {
            let input = word.checked_sub(1)?;
            Some(Served { output, input })
        })
        .collect()
}

/// A switch: its ports, its speedup and the slot that runs next. The table is lent to each call.
///
/// ```
/// use treikwater::{Arrival, Emitted, Refusal, Served, Switch, Table};
///
/// let mut table = Table::free(4);
/// let mut switch = Switch::fresh_start(2, 3, &mut table)?;
/// let both = [10, 11].map(|tag| Some(Arrival { output: 0, tag }));
/// let outcome = switch.slot(&mut table, &both)?;
/// let first = Emitted { output: 0, input: 0, entered: 0, tag: 10 };
/// assert_eq!(outcome.emitted().collect::<Vec<_>>(), [first]);
/// let phases: Vec<Vec<Served>> = outcome.phases().collect();
/// assert_eq!(phases[1], [Served { output: 0, input: 1 }]);
/// assert_eq!((switch.next(), table.live()), (1, 1));
///
/// assert_eq!(switch.slot(&mut table, &[None]), Err(Refusal::BadLists));
/// assert_eq!(switch.next(), 1);
/// # Ok::<(), Refusal>(())
/// ```
#[derive(Clone, PartialEq, Eq, Debug)]
pub struct Switch {
    numbers: [u32; 3],
}

impl Switch {
    /// A switch that goes on from these numbers; whether they are good, each slot tells.
    pub fn from_numbers(ports: u32, speedup: u32, next: u32) -> Switch {
        Switch {
            numbers: [ports, speedup, next],
        }
    }

    /// A fresh start: the next slot is 0, and every record is free. Its refusals are the first three.
    ///
    /// ```
    /// use treikwater::{Refusal, Switch, Table};
    /// let refused = Switch::fresh_start(17, 3, &mut Table::free(4));
    /// assert_eq!(refused, Err(Refusal::BadPorts));
    /// ```
    pub fn fresh_start(ports: u32, speedup: u32, table: &mut Table) -> Result<Switch, Refusal> {
        let mut switch = Switch::from_numbers(ports, speedup, 0);
        let number = words::fresh_start(&mut switch.numbers, table.words_mut());
        done(number).map(|()| switch)
    }

    pub fn ports(&self) -> u32 {
        self.numbers[0]
    }

    pub fn speedup(&self) -> u32 {
        self.numbers[1]
    }

    /// The slot that runs next.
    pub fn next(&self) -> u32 {
        self.numbers[2]
    }

    /// Runs the next slot, with an arrival or none for each input. Refused, it changes nothing, and
    /// no time passes.
    pub fn slot(
        &mut self,
        table: &mut Table,
        arrivals: &[Option<Arrival>],
    ) -> Result<Outcome, Refusal> {
        let ports = at_most(self.ports(), 16);
        let speedup = at_most(self.speedup(), 8);
        let mut outcome = Outcome {
            ports,
            matches: vec![0; speedup * ports],
            exhaled: vec![0; EXHALED_WORDS * ports],
        };
        let number = words::slot(
            &mut self.numbers,
            table.words_mut(),
            &arrival_words(arrivals),
            &mut outcome.matches,
            &mut outcome.exhaled,
        );
        done(number).map(|()| outcome)
    }
}

/// Numbers out of bounds are refused by the call; no list need be so long.
fn at_most(number: u32, most: u32) -> usize {
    number.min(most) as usize
}

/// An output that no word can name stands for the last one that a word can: neither is there.
fn arrival_words(arrivals: &[Option<Arrival>]) -> Vec<u32> {
    let mut words = Vec::with_capacity(ARRIVAL_WORDS * arrivals.len());
    for arrival in arrivals {
        words.extend(match arrival {
            Some(cell) => [cell.output.saturating_add(1), cell.tag],
            None => [0, 0],
        });
    }
    words
}

/// The numbers handed over are always three words, so that 255 is never given.
fn done(number: u32) -> Result<(), Refusal> {
    Refusal::from_number(number).map_or(Ok(()), Err)
}
