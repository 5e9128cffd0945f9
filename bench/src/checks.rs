//! What both plain slots share: the checks that read no record, and the words of a record.

pub const WIDTH: usize = 5;
pub const MOST_PORTS: usize = 16;
pub const MOST_RECORDS: usize = 1024;

pub const WAITING: u32 = 1;
pub const READY: u32 = 2;

/// The switch's numbers.
#[derive(Clone, Copy)]
pub struct Numbers {
    pub ports: u32,
    pub speedup: u32,
    pub next: u32,
}

impl Numbers {
    pub fn of(words: &[u32; 3]) -> Numbers {
        Numbers {
            ports: words[0],
            speedup: words[1],
            next: words[2],
        }
    }
}

/// Numbers 1 to 3.
pub fn sizes(w: Numbers, table: &[u32]) -> u32 {
    if !(1..=MOST_PORTS as u32).contains(&w.ports) {
        return 1;
    }
    if !(1..=8).contains(&w.speedup) {
        return 2;
    }
    let records = table.len() / WIDTH;
    if !table.len().is_multiple_of(WIDTH) || !(1..=MOST_RECORDS).contains(&records) {
        return 3;
    }
    0
}

/// Numbers 5 to 8, for a fit table with so many free records.
pub fn lists(w: Numbers, free: usize, arrivals: &[u32], matches: &[u32], exhaled: &[u32]) -> u32 {
    let (ports, speedup) = (w.ports as usize, w.speedup as usize);
    if arrivals.len() != 2 * ports || matches.len() != speedup * ports || exhaled.len() != 4 * ports
    {
        return 5;
    }
    if arrivals.iter().step_by(2).any(|&first| first > w.ports) {
        return 6;
    }
    if w.next == u32::MAX {
        return 7;
    }
    let arriving = arrivals.iter().step_by(2).filter(|&&first| first != 0);
    if arriving.count() > free {
        return 8;
    }
    0
}

/// What a record must meet by itself.
pub fn is_sound(w: Numbers, record: &[u32]) -> bool {
    match record[0] {
        0 => record[1] | record[2] | record[3] | record[4] == 0,
        WAITING | READY => record[1] < w.ports && record[2] < w.ports && record[3] < w.next,
        _ => false,
    }
}

/// Marks by slot and input, modulo 1,024 slots: whether this one was marked before.
pub fn was_marked(marks: &mut [u16; MOST_RECORDS], record: &[u32]) -> bool {
    let mark = &mut marks[record[3] as usize % MOST_RECORDS];
    let bit = 1 << record[1];
    let before = *mark & bit != 0;
    *mark |= bit;
    before
}

/// Whether a record above has the same slot and input; asked only where a mark was not new.
pub fn has_twin(above: &[u32], record: &[u32]) -> bool {
    above
        .chunks_exact(WIDTH)
        .any(|other| other[0] != 0 && other[3] == record[3] && other[1] == record[1])
}
