//! Times a slot, proved and plain, from the same states in turn; and the lines a second of the program.
//! Prints the tables and writes them to the file that it is given.
//!
//!     bench REPORT PLAIN [PROGRAM]    PLAIN is the plain program, PROGRAM the proved one

mod goals;
mod lines;
mod report;
mod timing;

use std::{env, fs};

use bench::states::Setting;
use timing::{time, Times};

/// Document 01's largest switch at two speedups, with four loads; and a small one.
fn settings() -> Vec<Setting> {
    let mut settings = Vec::new();
    for speedup in [3, 8] {
        settings.extend([0, 32, 256, 1000].map(|live| large(speedup, live)));
    }
    settings.push(Setting {
        ports: 4,
        speedup: 3,
        records: 64,
        live: 16,
    });
    settings
}

fn large(speedup: u32, live: usize) -> Setting {
    Setting {
        ports: 16,
        speedup,
        records: 1024,
        live,
    }
}

/// From 8 live cells to 1,000.
fn growth() -> Vec<Setting> {
    [8, 16, 32, 64, 128, 256, 512, 1000]
        .map(|live| large(3, live))
        .to_vec()
}

/// Both lists timed together, each setting once.
fn timed() -> Vec<(Setting, Times)> {
    let mut all = settings();
    all.extend(growth().into_iter().filter(|s| !settings().contains(s)));
    let times = time(&all);
    all.into_iter().zip(times).collect()
}

fn chosen(wanted: &[Setting], timed: &[(Setting, Times)]) -> Vec<(Setting, Times)> {
    wanted
        .iter()
        .filter_map(|w| timed.iter().find(|(setting, _)| setting == w))
        .copied()
        .collect()
}

fn main() {
    let arguments: Vec<String> = env::args().skip(1).collect();
    let (file, plain, program) = match arguments.as_slice() {
        [file, plain] => (file, plain, None),
        [file, plain, program] => (file, plain, Some(program)),
        _ => panic!("usage: bench REPORT PLAIN [PROGRAM]"),
    };
    let timed = timed();
    let slots = chosen(&settings(), &timed);
    let growth = chosen(&growth(), &timed);
    let lines = program.map(|program| lines::measure(program, plain));
    let report = report::written(&slots, &growth, lines.as_deref());
    print!("{report}");
    fs::write(file, report).expect("the report can be written");
}
