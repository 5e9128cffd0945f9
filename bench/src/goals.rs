//! What the proved slot and program are to cost at most beside the fastest plain Rust, and whether they
//! cost no more.

use bench::states::Setting;

use crate::lines::Lines;
use crate::timing::Times;

const SLOT: f64 = 3.0;
const PROGRAM: f64 = 2.0;

/// A ratio that is not to be exceeded; no ratio where nothing was measured.
pub struct Goal {
    pub what: String,
    pub most: f64,
    pub ratio: Option<f64>,
}

impl Goal {
    pub fn verdict(&self) -> &'static str {
        match self.ratio {
            None => "not measured",
            Some(ratio) if ratio <= self.most => "met",
            Some(_) => "missed",
        }
    }
}

pub fn goals(slots: &[(Setting, Times)], lines: Option<&[Lines]>) -> Vec<Goal> {
    let mut goals: Vec<Goal> = slots.iter().map(of_slot).collect();
    let programs = [(2, 3, 16), (16, 3, 1024)];
    goals.extend(programs.map(|sizes| of_program(sizes, lines)));
    goals
}

/// On the large switch the exhale's passes are left out; on a small one they are few.
fn of_slot((s, t): &(Setting, Times)) -> Goal {
    let is_large = s.ports == 16;
    let (time, apart) = if is_large {
        (t.without_exhale(), ", exhale's passes apart")
    } else {
        (t.proved.median, "")
    };
    Goal {
        what: format!(
            "a slot, N {}, S {}, {} records, {} live{apart}",
            s.ports, s.speedup, s.records, s.live
        ),
        most: SLOT,
        ratio: Some(time / t.fastest.median),
    }
}

fn of_program(sizes: (u32, u32, u32), lines: Option<&[Lines]>) -> Goal {
    let (ports, speedup, records) = sizes;
    let is_it = |line: &&Lines| (line.ports, line.speedup, line.records) == sizes;
    let line = lines.and_then(|lines| lines.iter().find(is_it));
    Goal {
        what: format!("the program, N {ports}, S {speedup}, {records} records"),
        most: PROGRAM,
        ratio: line.map(|line| line.scans.max(line.fastest) / line.proved),
    }
}
