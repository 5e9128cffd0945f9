//! A slot of the same shape as the proved one: a pass for each check and each reading, a scan of the
//! table for each round of each phase, and one for each output's oldest ready cell.

use crate::checks::{
    has_twin, is_sound, lists, sizes, was_marked, Numbers, MOST_PORTS, MOST_RECORDS, READY,
    WAITING, WIDTH,
};
use crate::Call;

type Readings = [u32; MOST_PORTS];

pub fn slot(call: Call) -> u32 {
    let w = Numbers::of(call.numbers);
    let number = check(w, &call);
    if number != 0 {
        return number;
    }
    inhale(w, call.table, call.arrivals);
    let readings = read(call.table);
    transfers(w, call.table, call.matches, &readings);
    exhale(call.table, call.exhaled);
    call.numbers[2] += 1;
    0
}

fn check(w: Numbers, call: &Call) -> u32 {
    let number = sizes(w, call.table);
    if number != 0 {
        return number;
    }
    if !is_fit(w, call.table) {
        return 4;
    }
    let records = call.table.chunks_exact(WIDTH);
    let free = records.filter(|record| record[0] == 0).count();
    lists(w, free, call.arrivals, call.matches, call.exhaled)
}

fn is_fit(w: Numbers, table: &[u32]) -> bool {
    let mut marks = [0; MOST_RECORDS];
    table.chunks_exact(WIDTH).enumerate().all(|(k, record)| {
        is_sound(w, record)
            && (record[0] == 0
                || !was_marked(&mut marks, record)
                || !has_twin(&table[..k * WIDTH], record))
    })
}

fn inhale(w: Numbers, table: &mut [u32], arrivals: &[u32]) {
    let mut free = table
        .chunks_exact_mut(WIDTH)
        .filter(|record| record[0] == 0);
    for (input, arrival) in (0..).zip(arrivals.chunks_exact(2)) {
        if arrival[0] == 0 {
            continue;
        }
        let Some(record) = free.next() else { return };
        record.copy_from_slice(&[WAITING, input, arrival[0] - 1, w.next, arrival[1]]);
    }
}

fn read(table: &[u32]) -> Readings {
    let mut readings = [0; MOST_PORTS];
    for record in table.chunks_exact(WIDTH) {
        if record[0] == READY {
            readings[record[2] as usize] += 1;
        }
    }
    readings
}

fn transfers(w: Numbers, table: &mut [u32], matches: &mut [u32], readings: &Readings) {
    matches.fill(0);
    for words in matches.chunks_exact_mut(w.ports as usize) {
        if !transfer(table, words, readings) {
            return;
        }
    }
}

/// Whether any cell moved.
fn transfer(table: &mut [u32], words: &mut [u32], readings: &Readings) -> bool {
    let (mut inputs, mut outputs) = (0u16, 0u16);
    while let Some(k) = first_candidate(table, readings, inputs, outputs) {
        let record = &mut table[k * WIDTH..][..WIDTH];
        record[0] = READY;
        inputs |= 1 << record[1];
        outputs |= 1 << record[2];
        words[record[2] as usize] = record[1] + 1;
    }
    outputs != 0
}

fn first_candidate(table: &[u32], readings: &Readings, inputs: u16, outputs: u16) -> Option<usize> {
    let mut best = (u32::MAX, u32::MAX, u32::MAX);
    let mut found = None;
    for (k, record) in table.chunks_exact(WIDTH).enumerate() {
        if record[0] != WAITING || inputs >> record[1] & 1 != 0 || outputs >> record[2] & 1 != 0 {
            continue;
        }
        let key = (readings[record[2] as usize], record[3], record[1]);
        if key < best {
            best = key;
            found = Some(k);
        }
    }
    found
}

/// A pass over the table for each output.
fn exhale(table: &mut [u32], exhaled: &mut [u32]) {
    for (output, words) in (0..).zip(exhaled.chunks_exact_mut(4)) {
        let Some(k) = oldest_ready(table, output) else {
            words.fill(0);
            continue;
        };
        let record = &mut table[k * WIDTH..][..WIDTH];
        words.copy_from_slice(&[1, record[1], record[3], record[4]]);
        record.fill(0);
    }
}

fn oldest_ready(table: &[u32], output: u32) -> Option<usize> {
    let mut best = (u32::MAX, u32::MAX);
    let mut found = None;
    for (k, record) in table.chunks_exact(WIDTH).enumerate() {
        if record[0] == READY && record[2] == output && (record[3], record[1]) < best {
            best = (record[3], record[1]);
            found = Some(k);
        }
    }
    found
}
