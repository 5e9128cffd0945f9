//! The states that are timed: fit tables with so many live cells, made before the clock runs.

use crate::Call;
use second::generate::{shaped_table, valid_arrivals, Era, Random, Shape, Traffic};

const SEED: u64 = 7;
const NEXT: u32 = 100_000;
/// Of a hundred live cells, how many wait; and of a hundred inputs, how many bring a cell.
pub const WAITING: u32 = 50;
pub const LOAD: u32 = 50;
/// States of one setting, timed one after the other.
pub const STATES: usize = 16;

/// N, S, the table's length and how many of its records are live.
#[derive(Clone, Copy, PartialEq, Eq)]
pub struct Setting {
    pub ports: u32,
    pub speedup: u32,
    pub records: usize,
    pub live: usize,
}

/// All that a slot is handed.
#[derive(Clone, PartialEq, Eq, Debug)]
pub struct State {
    pub numbers: [u32; 3],
    pub table: Vec<u32>,
    pub arrivals: Vec<u32>,
    pub matches: Vec<u32>,
    pub exhaled: Vec<u32>,
}

impl State {
    pub fn call(&mut self) -> Call<'_> {
        Call {
            numbers: &mut self.numbers,
            table: &mut self.table,
            arrivals: &self.arrivals,
            matches: &mut self.matches,
            exhaled: &mut self.exhaled,
        }
    }
}

pub fn states(setting: Setting) -> Vec<State> {
    let mut random = Random::new(SEED);
    (0..STATES).map(|_| state(&mut random, setting)).collect()
}

fn state(random: &mut Random, setting: Setting) -> State {
    let Setting {
        ports,
        speedup,
        records,
        live,
    } = setting;
    let shape = Shape {
        live,
        era: Era::Last,
        output: None,
        waiting: WAITING,
    };
    let traffic = Traffic {
        load: LOAD,
        first_output: 0,
        outputs: ports,
    };
    State {
        numbers: [ports, speedup, NEXT],
        table: shaped_table(random, ports, NEXT, records, shape),
        arrivals: valid_arrivals(random, ports, traffic),
        matches: vec![0; (speedup * ports) as usize],
        exhaled: vec![0; 4 * ports as usize],
    }
}
