//! The edge: words in, words out, and the numbers given back (document 01, "Sizes", "Lists" and
//! "Numbers given back"). Everything is read into sets before a single word is written.

use std::collections::BTreeMap;

use crate::cells::{Content, Identity, Input, Output, Slot};
use crate::switch::{Arrival, Arrivals, Held};

pub const MOST_PORTS: u32 = 16;
pub const MOST_SPEEDUP: u32 = 8;
pub const MOST_RECORDS: usize = 1024;
/// A record: place, input, output, slot of entry, tag.
pub const RECORD_WORDS: usize = 5;
/// An arrival: 0 or output + 1, then the tag.
pub const ARRIVAL_WORDS: usize = 2;
/// An exhaled cell: 1, input, slot of entry, tag.
pub const EXHALED_WORDS: usize = 4;

const WAITING: u32 = 1;
const READY: u32 = 2;
const DONE: u32 = 0;

/// The switch's numbers: N, S and t.
#[derive(Clone, Copy, PartialEq, Eq, Debug)]
pub struct Numbers {
    pub ports: u32,
    pub speedup: u32,
    pub next: u32,
}

#[derive(Clone, Copy)]
enum Refusal {
    Ports = 1,
    Speedup = 2,
    TableLength = 3,
    Unfit = 4,
    ListLength = 5,
    Arrival = 6,
    TimeSpent = 7,
    NoRoom = 8,
}

/// Makes t 0 and every record free, or gives 1, 2 or 3 and changes nothing.
pub fn fresh_start(w: Numbers, table: &mut [u32]) -> (u32, Numbers) {
    match check_sizes(w, table) {
        Err(refusal) => (refusal as u32, w),
        Ok(()) => {
            table.fill(0);
            (DONE, Numbers { next: 0, ..w })
        }
    }
}

/// Runs slot t, or gives a number from 1 to 8 and changes nothing.
pub fn slot(
    w: Numbers,
    table: &mut [u32],
    arrivals: &[u32],
    matches: &mut [u32],
    exhaled: &mut [u32],
) -> (u32, Numbers) {
    match accept(w, table, arrivals, matches.len(), exhaled.len()) {
        Err(refusal) => (refusal as u32, w),
        Ok((mut held, coming)) => {
            let shown = held.slot(Slot(w.next), w.speedup, &coming);
            write_table(&held, table);
            write_matches(w, &shown.matches, matches);
            write_exhaled(&shown.exhaled, exhaled);
            let next = w.next + 1;
            (DONE, Numbers { next, ..w })
        }
    }
}

/// All the checks of a slot in their order; what passes them is read into sets.
fn accept(
    w: Numbers,
    table: &[u32],
    arrivals: &[u32],
    matches_length: usize,
    exhaled_length: usize,
) -> Result<(Held, Arrivals), Refusal> {
    check_sizes(w, table)?;
    let held = read_table(w, table).ok_or(Refusal::Unfit)?;
    let (ports, speedup) = (w.ports as usize, w.speedup as usize);
    if arrivals.len() != ARRIVAL_WORDS * ports
        || matches_length != speedup * ports
        || exhaled_length != EXHALED_WORDS * ports
    {
        return Err(Refusal::ListLength);
    }
    let coming = read_arrivals(w, arrivals).ok_or(Refusal::Arrival)?;
    if w.next == u32::MAX {
        return Err(Refusal::TimeSpent);
    }
    if coming.len() > held.free.len() {
        return Err(Refusal::NoRoom);
    }
    Ok((held, coming))
}

fn check_sizes(w: Numbers, table: &[u32]) -> Result<(), Refusal> {
    if !(1..=MOST_PORTS).contains(&w.ports) {
        return Err(Refusal::Ports);
    }
    if !(1..=MOST_SPEEDUP).contains(&w.speedup) {
        return Err(Refusal::Speedup);
    }
    let whole_records = table.len().is_multiple_of(RECORD_WORDS);
    if !whole_records || !(1..=MOST_RECORDS).contains(&(table.len() / RECORD_WORDS)) {
        return Err(Refusal::TableLength);
    }
    Ok(())
}

/// Nothing when the table is not fit.
fn read_table(w: Numbers, table: &[u32]) -> Option<Held> {
    let mut held = Held::default();
    for (record, words) in table.chunks_exact(RECORD_WORDS).enumerate() {
        if words.iter().all(|&word| word == 0) {
            held.free.insert(record);
            continue;
        }
        let (place, identity, content) = read_live(w, record, words)?;
        if held.waiting.contains_key(&identity) || held.ready.contains_key(&identity) {
            return None;
        }
        match place {
            WAITING => held.waiting.insert(identity, content),
            READY => held.ready.insert(identity, content),
            _ => return None,
        };
    }
    Some(held)
}

fn read_live(w: Numbers, record: usize, words: &[u32]) -> Option<(u32, Identity, Content)> {
    let &[place, input, output, entered, tag] = words else {
        return None;
    };
    if input >= w.ports || output >= w.ports || entered >= w.next {
        return None;
    }
    let identity = Identity {
        entered: Slot(entered),
        input: Input(input),
    };
    let output = Output(output);
    let content = Content {
        output,
        tag,
        record,
    };
    Some((place, identity, content))
}

/// Nothing when some first word is above N.
fn read_arrivals(w: Numbers, arrivals: &[u32]) -> Option<Arrivals> {
    let mut coming = Arrivals::new();
    for (input, words) in (0..).zip(arrivals.chunks_exact(ARRIVAL_WORDS)) {
        let &[first, tag] = words else { return None };
        if first > w.ports {
            return None;
        }
        if let Some(output) = first.checked_sub(1).map(Output) {
            coming.insert(Input(input), Arrival { output, tag });
        }
    }
    Some(coming)
}

fn write_table(held: &Held, table: &mut [u32]) {
    for &record in &held.free {
        write_record(record, [0; RECORD_WORDS], table);
    }
    for (place, unit) in [(WAITING, &held.waiting), (READY, &held.ready)] {
        for (identity, content) in unit {
            let (Input(input), Slot(entered)) = (identity.input, identity.entered);
            let Output(output) = content.output;
            let words = [place, input, output, entered, content.tag];
            write_record(content.record, words, table);
        }
    }
}

fn write_record(record: usize, words: [u32; RECORD_WORDS], table: &mut [u32]) {
    let start = record * RECORD_WORDS;
    table[start..start + RECORD_WORDS].copy_from_slice(&words);
}

fn write_matches(w: Numbers, phases: &[BTreeMap<Output, Input>], matches: &mut [u32]) {
    matches.fill(0);
    for (phase, words) in phases
        .iter()
        .zip(matches.chunks_exact_mut(w.ports as usize))
    {
        for (&Output(output), &Input(input)) in phase {
            words[output as usize] = 1 + input;
        }
    }
}

fn write_exhaled(emitted: &BTreeMap<Output, (Identity, Content)>, exhaled: &mut [u32]) {
    exhaled.fill(0);
    for (&Output(output), (identity, content)) in emitted {
        let (Input(input), Slot(entered)) = (identity.input, identity.entered);
        let start = output as usize * EXHALED_WORDS;
        exhaled[start..start + EXHALED_WORDS].copy_from_slice(&[1, input, entered, content.tag]);
    }
}
