//! The program of document 01 in plain Rust, over any slot.

use std::io::{self, BufRead, Write};

use crate::states::State;
use crate::SlotFn;

const HEADER: &[u8] = b"slot output input entered tag\n";

/// Reads arrivals and prints emitted cells.
pub fn run(slot: SlotFn, mut input: impl BufRead, mut out: impl Write) -> io::Result<()> {
    let mut line = Vec::new();
    let first = match next_line(&mut input, &mut line)? {
        Line::Whole(line) => numbers(line),
        Line::Torn | Line::End => None,
    };
    let Some(&[ports, speedup, records]) = first.as_deref() else {
        return out.write_all(b"unreadable\n");
    };
    let number = sizes(ports, speedup, records);
    if number != 0 {
        return writeln!(out, "refused {number}");
    }
    let state = State {
        numbers: [ports, speedup, 0],
        table: vec![0; 5 * records as usize],
        arrivals: vec![0; 2 * ports as usize],
        matches: vec![0; (speedup * ports) as usize],
        exhaled: vec![0; 4 * ports as usize],
    };
    let mut switch = Switch { slot, state };
    out.write_all(HEADER)?;
    switch.run(&mut input, &mut line, &mut out)?;
    writeln!(out, "held {}", switch.live())
}

fn sizes(ports: u32, speedup: u32, records: u32) -> u32 {
    if !(1..=16).contains(&ports) {
        1
    } else if !(1..=8).contains(&speedup) {
        2
    } else if !(1..=1024).contains(&records) {
        3
    } else {
        0
    }
}

struct Switch {
    slot: SlotFn,
    state: State,
}

impl Switch {
    fn run(
        &mut self,
        input: &mut impl BufRead,
        line: &mut Vec<u8>,
        out: &mut impl Write,
    ) -> io::Result<()> {
        loop {
            match next_line(input, line)? {
                Line::Whole(line) if read_arrivals(line, &mut self.state.arrivals) => {
                    self.slot(out)?
                }
                Line::Whole(_) | Line::Torn => return out.write_all(b"unreadable\n"),
                Line::End => return Ok(()),
            }
        }
    }

    fn slot(&mut self, out: &mut impl Write) -> io::Result<()> {
        let now = self.state.numbers[2];
        let number = (self.slot)(self.state.call());
        if number != 0 {
            return writeln!(out, "refused {number}");
        }
        for (output, cell) in self.state.exhaled.chunks_exact(4).enumerate() {
            if cell[0] != 0 {
                writeln!(out, "{now} {output} {} {} {}", cell[1], cell[2], cell[3])?;
            }
        }
        Ok(())
    }

    fn live(&self) -> usize {
        let records = self.state.table.chunks_exact(5);
        records.filter(|record| record[0] != 0).count()
    }
}

enum Line<'a> {
    /// Without its newline.
    Whole(&'a [u8]),
    /// Bytes after the last newline.
    Torn,
    End,
}

fn next_line<'a>(input: &mut impl BufRead, line: &'a mut Vec<u8>) -> io::Result<Line<'a>> {
    line.clear();
    let read = input.read_until(b'\n', line)?;
    Ok(match line.strip_suffix(b"\n") {
        Some(whole) => Line::Whole(whole),
        None if read == 0 => Line::End,
        None => Line::Torn,
    })
}

fn number(field: &[u8]) -> Option<u32> {
    if field.is_empty() {
        return None;
    }
    field.iter().try_fold(0u32, |number, byte| {
        let digit = byte.wrapping_sub(b'0');
        if digit > 9 {
            return None;
        }
        number.checked_mul(10)?.checked_add(u32::from(digit))
    })
}

fn numbers(line: &[u8]) -> Option<Vec<u32>> {
    line.split(|&byte| byte == b' ').map(number).collect()
}

fn read_arrivals(line: &[u8], arrivals: &mut [u32]) -> bool {
    let mut fields = line.split(|&byte| byte == b' ');
    for words in arrivals.chunks_exact_mut(2) {
        let Some(read) = fields.next().and_then(arrival) else {
            return false;
        };
        words.copy_from_slice(&read);
    }
    fields.next().is_none()
}

fn arrival(field: &[u8]) -> Option<[u32; 2]> {
    if field == b"-" {
        return Some([0, 0]);
    }
    let colon = field.iter().position(|&byte| byte == b':')?;
    let first = number(&field[..colon])?.checked_add(1)?;
    Some([first, number(&field[colon + 1..])?])
}
