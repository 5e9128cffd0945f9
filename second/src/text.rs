//! The text program (document 01, "The program"): bytes in, bytes out.

use crate::edge::{fresh_start, slot, Numbers, EXHALED_WORDS, MOST_RECORDS, RECORD_WORDS};

const HEADER: &str = "slot output input entered tag\n";
const UNREADABLE: &str = "unreadable\n";

/// What the program prints for this standard input.
pub fn run_text(input: &[u8]) -> Vec<u8> {
    // Bytes after the last newline have no suffix to strip: they come as no line at all.
    let mut lines = input
        .split_inclusive(|&byte| byte == b'\n')
        .map(|piece| piece.strip_suffix(b"\n"));
    let printed = match lines.next().flatten().and_then(read_sizes) {
        None => UNREADABLE.to_string(),
        Some(sizes) => match Bench::start(sizes) {
            Err(refusal) => refused(refusal),
            Ok(bench) => bench.run(lines),
        },
    };
    printed.into_bytes()
}

/// A switch after an accepted fresh start, and what has been printed of it.
struct Bench {
    numbers: Numbers,
    table: Vec<u32>,
    printed: String,
}

impl Bench {
    fn start([ports, speedup, records]: [u32; 3]) -> Result<Bench, u32> {
        // One record too many stands for every longer table.
        let records = usize::try_from(records).unwrap_or(usize::MAX);
        let mut table = vec![0; RECORD_WORDS * records.min(MOST_RECORDS + 1)];
        let wanted = Numbers {
            ports,
            speedup,
            next: 0,
        };
        match fresh_start(wanted, &mut table) {
            (0, numbers) => Ok(Bench {
                numbers,
                table,
                printed: HEADER.to_string(),
            }),
            (refusal, _) => Err(refusal),
        }
    }

    fn run<'a>(mut self, lines: impl Iterator<Item = Option<&'a [u8]>>) -> String {
        for line in lines {
            let Some(arrivals) = line.and_then(|line| read_arrivals(line, self.numbers.ports))
            else {
                self.print(UNREADABLE);
                break;
            };
            self.slot(&arrivals);
        }
        let live = self
            .table
            .chunks_exact(RECORD_WORDS)
            .filter(|record| record[0] != 0)
            .count();
        self.print(&format!("held {live}\n"));
        self.printed
    }

    fn slot(&mut self, arrivals: &[u32]) {
        let Numbers {
            ports,
            speedup,
            next,
        } = self.numbers;
        let mut matches = vec![0; (speedup * ports) as usize];
        let mut exhaled = vec![0; EXHALED_WORDS * ports as usize];
        let (answer, numbers) = slot(
            self.numbers,
            &mut self.table,
            arrivals,
            &mut matches,
            &mut exhaled,
        );
        self.numbers = numbers;
        if answer != 0 {
            self.print(&refused(answer));
            return;
        }
        for (output, words) in exhaled.chunks_exact(EXHALED_WORDS).enumerate() {
            if let [1, input, entered, tag] = words {
                self.print(&format!("{next} {output} {input} {entered} {tag}\n"));
            }
        }
    }

    fn print(&mut self, text: &str) {
        self.printed.push_str(text);
    }
}

fn refused(number: u32) -> String {
    format!("refused {number}\n")
}

/// N, S and the table length.
fn read_sizes(line: &[u8]) -> Option<[u32; 3]> {
    let numbers: Option<Vec<u32>> = fields(line).map(read_number).collect();
    numbers?.try_into().ok()
}

/// The arrivals list of one slot: two words for each of the fields, which must be N.
fn read_arrivals(line: &[u8], ports: u32) -> Option<Vec<u32>> {
    let words: Option<Vec<[u32; 2]>> = fields(line).map(read_arrival).collect();
    words
        .filter(|words| words.len() == ports as usize)
        .map(|words| words.concat())
}

fn read_arrival(field: &[u8]) -> Option<[u32; 2]> {
    if field == b"-" {
        return Some([0, 0]);
    }
    let colon = field.iter().position(|&byte| byte == b':')?;
    let output = read_number(&field[..colon])?;
    let tag = read_number(&field[colon + 1..])?;
    // An output above 4,294,967,294 has no word.
    Some([output.checked_add(1)?, tag])
}

fn read_number(field: &[u8]) -> Option<u32> {
    if field.is_empty() {
        return None;
    }
    field.iter().try_fold(0u32, |sum, &byte| {
        let digit = char::from(byte).to_digit(10)?;
        sum.checked_mul(10)?.checked_add(digit)
    })
}

fn fields(line: &[u8]) -> impl Iterator<Item = &[u8]> {
    line.split(|&byte| byte == b' ')
}
