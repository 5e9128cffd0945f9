//! Lines a second of the programs, on one text each, by a pipe to and from them.

use std::fs::{self, File};
use std::path::Path;
use std::process::{Command, Stdio};
use std::time::Instant;

use second::generate::{valid_arrivals, Random, Traffic};

pub const LINES: usize = 100_000;
/// Of a hundred slots, in how many an input brings a cell.
pub const LOAD: u32 = 50;
const RUNS: usize = 9;

/// One text and the lines a second that each program reads of it.
pub struct Lines {
    pub ports: u32,
    pub speedup: u32,
    pub records: u32,
    pub proved: f64,
    pub scans: f64,
    pub fastest: f64,
}

pub fn measure(program: &str, plain: &str) -> Vec<Lines> {
    [(2, 3, 16), (4, 3, 64), (16, 3, 1024)]
        .map(|(ports, speedup, records)| {
            let name = format!("treikwater-lines-{}", std::process::id());
            let path = std::env::temp_dir().join(name);
            fs::write(&path, text(ports, speedup, records)).expect("room for a text");
            let [proved, scans, fastest] = rates(program, plain, &path);
            fs::remove_file(&path).expect("the text was written");
            Lines {
                ports,
                speedup,
                records,
                proved,
                scans,
                fastest,
            }
        })
        .into()
}

/// The three programs in turn, so that a slow while of the machine meets them all; the medians.
fn rates(program: &str, plain: &str, text: &Path) -> [f64; 3] {
    let mut samples: [Vec<f64>; 3] = Default::default();
    for _ in 0..RUNS {
        let [proved, scans, fastest] = &mut samples;
        proved.push(rate(&mut Command::new(program), text));
        scans.push(rate(Command::new(plain).arg("scans"), text));
        fastest.push(rate(Command::new(plain).arg("ranked"), text));
    }
    samples.map(|mut rates| {
        rates.sort_by(f64::total_cmp);
        rates[RUNS / 2]
    })
}

fn rate(command: &mut Command, text: &Path) -> f64 {
    let start = Instant::now();
    let status = command
        .stdin(File::open(text).expect("the text was written"))
        .stdout(Stdio::null())
        .status()
        .expect("the program starts");
    assert!(status.success());
    LINES as f64 / start.elapsed().as_secs_f64()
}

fn text(ports: u32, speedup: u32, records: u32) -> String {
    let mut random = Random::new(9);
    let traffic = Traffic {
        load: LOAD,
        first_output: 0,
        outputs: ports,
    };
    let mut text = format!("{ports} {speedup} {records}\n");
    for _ in 0..LINES {
        let arrivals = valid_arrivals(&mut random, ports, traffic);
        let fields: Vec<String> = arrivals.chunks_exact(2).map(field).collect();
        text += &fields.join(" ");
        text.push('\n');
    }
    text
}

fn field(words: &[u32]) -> String {
    match words[0].checked_sub(1) {
        Some(output) => format!("{output}:{}", words[1]),
        None => "-".to_string(),
    }
}
