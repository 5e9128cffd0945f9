//! Random fit tables, and the ways of document 01 in which a table is not fit.

use std::collections::BTreeSet;

use super::{tag, Random};
use crate::edge::RECORD_WORDS;

/// Where the slots of entry lie: right after 0, right before t, or somewhere between.
#[derive(Clone, Copy, PartialEq, Eq, Debug)]
pub enum Era {
    First,
    Last,
    Anywhere,
}

/// What a fit table is to look like.
#[derive(Clone, Copy, PartialEq, Eq, Debug)]
pub struct Shape {
    /// Live records wanted. Fewer stand where t and N allow fewer.
    pub live: usize,
    pub era: Era,
    /// The output of all cells, or none for any output to each.
    pub output: Option<u32>,
    /// Of a hundred live records, how many are waiting.
    pub waiting: u32,
}

impl Shape {
    pub const EMPTY: Shape = Shape {
        live: 0,
        era: Era::Anywhere,
        output: None,
        waiting: 0,
    };

    pub fn full(records: usize, era: Era) -> Shape {
        Shape {
            live: records,
            era,
            output: None,
            waiting: 50,
        }
    }

    /// Every cell waits for one output.
    pub fn one_output(live: usize, era: Era, output: u32) -> Shape {
        Shape {
            live,
            era,
            output: Some(output),
            waiting: 100,
        }
    }

    pub fn random(random: &mut Random, ports: u32, records: usize) -> Shape {
        let some = random.index(records + 1);
        let live = random.pick(&[0, 1, some, some, some, records - 1, records]);
        let output = random.between(0, ports - 1);
        Shape {
            live,
            era: random.pick(&[Era::First, Era::Last, Era::Anywhere]),
            output: random.pick(&[None, None, None, Some(output)]),
            waiting: random.pick(&[0, 20, 50, 80, 80, 100, 100]),
        }
    }
}

/// A table of any shape, fit for this N (1 to 16) and t, with at least one record.
pub fn fit_table(random: &mut Random, ports: u32, next: u32, records: usize) -> Vec<u32> {
    let shape = Shape::random(random, ports, records);
    shaped_table(random, ports, next, records, shape)
}

/// A table of this shape, fit for this N (1 to 16) and t. Records are taken in no order.
pub fn shaped_table(
    random: &mut Random,
    ports: u32,
    next: u32,
    records: usize,
    shape: Shape,
) -> Vec<u32> {
    let mut table = vec![0; records * RECORD_WORDS];
    let mut places: Vec<&mut [u32]> = table.chunks_exact_mut(RECORD_WORDS).collect();
    random.shuffle(&mut places);
    let cells = identities(random, ports, next, shape.live.min(records), shape.era);
    for ((entered, input), record) in cells.into_iter().zip(places) {
        let place = if random.percent(shape.waiting) { 1 } else { 2 };
        let any_output = random.between(0, ports - 1);
        let output = shape.output.unwrap_or(any_output);
        record.copy_from_slice(&[place, input, output, entered, tag(random)]);
    }
    table
}

/// Pairs of slot and input, no two alike, out of a narrow or a wide window of slots below t.
fn identities(
    random: &mut Random,
    ports: u32,
    next: u32,
    live: usize,
    era: Era,
) -> BTreeSet<(u32, u32)> {
    let narrow = (live as u32).div_ceil(ports);
    let width = random
        .pick(&[narrow, narrow + 1, 4 * narrow, next])
        .min(next);
    let start = match era {
        Era::First => 0,
        Era::Last => next - width,
        Era::Anywhere => random.between(0, next - width),
    };
    let possible = u64::from(width) * u64::from(ports);
    let wanted = possible.min(live as u64) as usize;
    let mut chosen = BTreeSet::new();
    while chosen.len() < wanted {
        let entered = start + random.between(0, width - 1);
        chosen.insert((entered, random.between(0, ports - 1)));
    }
    chosen
}

/// A way in which a table is not fit.
#[derive(Clone, Copy, PartialEq, Eq, Debug)]
pub enum Damage {
    /// A place above 2.
    Place,
    /// A free record with a word other than zero.
    FreeInput,
    FreeOutput,
    FreeSlot,
    FreeTag,
    /// A live record with a number out of its bounds.
    LiveInput,
    LiveOutput,
    LiveSlot,
    /// Two live records with the same slot and the same input.
    Twins,
}

impl Damage {
    pub const ALL: [Damage; 9] = [
        Damage::Place,
        Damage::FreeInput,
        Damage::FreeOutput,
        Damage::FreeSlot,
        Damage::FreeTag,
        Damage::LiveInput,
        Damage::LiveOutput,
        Damage::LiveSlot,
        Damage::Twins,
    ];
}

/// Damages a fit table in this one way. False, and nothing changed, where the table has no record
/// that can be damaged so.
pub fn damage_table(
    random: &mut Random,
    damage: Damage,
    ports: u32,
    next: u32,
    table: &mut [u32],
) -> bool {
    let not_zero = random.pick(&[1, 2, 5, u32::MAX]);
    let no_place = random.pick(&[3, 4, 255, 1 << 16, u32::MAX]);
    let no_port = random.pick(&[ports, ports + 1, ports + 16, 1 << 16, u32::MAX]);
    let no_slot = random.pick(&[next, next.saturating_add(1), u32::MAX]);
    match damage {
        Damage::Place => set_word(random, table, |_| true, 0, no_place),
        Damage::FreeInput => set_word(random, table, is_free, 1, not_zero),
        Damage::FreeOutput => set_word(random, table, is_free, 2, not_zero),
        Damage::FreeSlot => set_word(random, table, is_free, 3, not_zero),
        Damage::FreeTag => set_word(random, table, is_free, 4, not_zero),
        Damage::LiveInput => set_word(random, table, is_live, 1, no_port),
        Damage::LiveOutput => set_word(random, table, is_live, 2, no_port),
        Damage::LiveSlot => set_word(random, table, is_live, 3, no_slot),
        Damage::Twins => make_twins(random, ports, table),
    }
}

fn is_free(record: &[u32]) -> bool {
    record[0] == 0
}

fn is_live(record: &[u32]) -> bool {
    record[0] != 0
}

fn set_word(
    random: &mut Random,
    table: &mut [u32],
    suits: impl Fn(&[u32]) -> bool,
    field: usize,
    word: u32,
) -> bool {
    let mut suitable: Vec<&mut [u32]> = table
        .chunks_exact_mut(RECORD_WORDS)
        .filter(|record| suits(record))
        .collect();
    if suitable.is_empty() {
        return false;
    }
    let chosen = random.index(suitable.len());
    suitable[chosen][field] = word;
    true
}

/// A live record lends its slot and input to another record, whatever that one held.
fn make_twins(random: &mut Random, ports: u32, table: &mut [u32]) -> bool {
    let mut records: Vec<&mut [u32]> = table.chunks_exact_mut(RECORD_WORDS).collect();
    random.shuffle(&mut records);
    let Some(live) = records.iter().position(|record| is_live(record)) else {
        return false;
    };
    let (input, entered) = (records[live][1], records[live][3]);
    records.swap_remove(live);
    let Some(twin) = records.first_mut() else {
        return false;
    };
    let place = random.between(1, 2);
    let output = random.between(0, ports - 1);
    twin.copy_from_slice(&[place, input, output, entered, tag(random)]);
    true
}
