//! The tables as a page.

use std::{fs, thread};

use bench::states::{Setting, LOAD, STATES, WAITING};

use crate::goals::goals;
use crate::lines::{self, Lines};
use crate::timing::Times;

type Row = (Setting, Times);

pub fn written(slots: &[Row], growth: &[Row], lines: Option<&[Lines]>) -> String {
    [
        head(),
        slot_table(slots),
        goal_table(slots, lines),
        part_table(slots),
        growth_table(growth),
        line_table(lines),
        REMARKS.to_string(),
    ]
    .join("\n")
}

/// What no clock tells: what is in the way of the goals that are missed, and what the machine code shows.
const REMARKS: &str = "\
## What is in the way

- The exhale passes over the table once for each output, until that is one pass (document 02, L4). On the large switch that is half of a slot and more,\n  \
and what the program at N 16 misses its goal by: sixteen passes look at 16,384 places, and the processor loads no more than two or three at once.
- With few live cells the passes over the table are most of the rest, and the proved slot makes four before the phases where the fastest makes one:\n  \
the fit check, the count of live cells, the reading and the lining up of the queues. Each is a function with a contract of its own, called by\n  \
`switch`, which this left alone.
- With many, the rounds and the comparisons of heads: which of two cells is older goes either way. The fastest sorts the waiting cells once.

## In the machine code

The slot is one function of some fifteen hundred instructions, with no division and no call but of memset and, for blocks that have a record with\n\
the place that is asked for, of `note_within`. What stands in a record decides no branch in the passes: the places of eight records are or-ed from\n\
memory, one bit of that is added to how many blocks are noted, and the words of eight records are or-ed in vectors for the fit check. Free ports are\n\
stepped through by tzcnt, a set less another is a not and an and. A struct that is passed by value is copied where an element of it is read: the\n\
sixteen counts where a phase looks for the lowest, not in each round; what a phase picked is lent, and not copied any more. In the program a slot\n\
line costs a call, each field one or two, and no byte one.
";

fn head() -> String {
    format!(
        "# What a slot costs\n\n\
Made by `bench/run`. Machine: {}, {} cores; one thread; release builds without flags for one processor.\n\n\
The proved slot, called through the library for other languages, beside two plain Rust slots that make the same checks on every call and\n\
write the same words (`bench/tests` compares the three). *By scans* has the obvious shape: a pass for each check and reading, a scan of the\n\
table for each round of each phase and for each output. The proved slot had that shape before it had queues, and then took 1.01 to 1.13 times\n\
as long: that column is what was, *proved* what is. *Fastest* is the fastest plain Rust that we found: blocks of free records are skipped,\n\
one pass over the live ones, waiting cells ranked as bits or, where there are many, in queues by input and output. *One read* sums the\n\
words of the table: less than that nothing can cost that checks it. The ratios are the proved slot's time by theirs.\n\n\
Each setting has {STATES} fit tables with so many live cells, {WAITING} of 100 waiting, any outputs, and an input brings a cell in {LOAD} of 100 cases. All are\n\
timed in turn from the same states, which are copied back before each timed part, not in it, so that the tables are in the cache. Medians of\n\
several passes over all settings; the quartiles tell how calm the machine was.\n",
        processor(),
        thread::available_parallelism().map_or(1, usize::from),
    )
}

fn processor() -> String {
    let info = fs::read_to_string("/proc/cpuinfo").unwrap_or_default();
    info.lines()
        .find_map(|line| line.strip_prefix("model name")?.split(": ").nth(1))
        .unwrap_or("a processor that does not say its name")
        .to_string()
}

/// A heading, what is to be said, and a table with these columns.
fn table(
    heading: &str,
    said: &str,
    columns: &[&str],
    rows: impl Iterator<Item = String>,
) -> String {
    let titles = columns.join(" | ");
    let rule = "---|".repeat(columns.len());
    let rows: String = rows.map(|row| format!("| {row} |\n")).collect();
    format!("## {heading}\n\n{said}| {titles} |\n|{rule}\n{rows}")
}

fn slot_table(slots: &[Row]) -> String {
    let columns = [
        "N",
        "S",
        "records",
        "live",
        "proved",
        "(quartiles)",
        "by scans",
        "ratio",
        "fastest",
        "ratio",
        "one read",
    ];
    let rows = slots.iter().map(|(s, t)| {
        let (proved, scans, fastest) = (t.proved.median, t.scans.median, t.fastest.median);
        format!(
            "{} | {} | {} | {} | {proved:.0} | {:.0} to {:.0} | {scans:.0} | {:.2} | {fastest:.0} | {:.2} | {:.0}",
            s.ports,
            s.speedup,
            s.records,
            s.live,
            t.proved.low,
            t.proved.high,
            proved / scans,
            proved / fastest,
            t.read.median
        )
    });
    table("A slot, in nanoseconds", "", &columns, rows)
}

const GOALS: &str = "\
The ratio of the proved to the fastest plain Rust, and what it is to be at most. *Exhale's passes apart*: less the time of the passes that\n\
the next table explains, while the fastest keeps its own exhale. For the program, the lines a second of the faster\n\
plain program by the proved one's.\n\n";

fn goal_table(slots: &[Row], lines: Option<&[Lines]>) -> String {
    let rows = goals(slots, lines).into_iter().map(|goal| {
        let ratio = goal
            .ratio
            .map_or("".to_string(), |ratio| format!("{ratio:.2}"));
        format!(
            "{} | {} | {ratio} | {}",
            goal.what,
            goal.most,
            goal.verdict()
        )
    });
    table("Goals", GOALS, &["what", "at most", "ratio", ""], rows)
}

const PARTS: &str = "\
The stages of the proved slot as calls of their own (`crates/stages`), each from the states as the stages before it leave them. *Reading*: how many ready\n\
cells each output has. *Picking*: the phases, with the lining up of the queues. *Exhale*: its passes, one for each output. What the stages lack of\n\
the whole are the other checks, and what it costs that they come one after the other.\n\n";

/// Of the large switch at speedup 3.
fn part_table(slots: &[Row]) -> String {
    let columns = [
        "live",
        "fit check",
        "count of live cells",
        "inhale",
        "reading",
        "picking",
        "exhale",
        "all stages",
        "whole",
        "whole less exhale",
        "fastest",
        "ratio",
    ];
    let large = slots
        .iter()
        .filter(|(s, _)| (s.ports, s.speedup) == (16, 3));
    let rows = large.map(|(s, t)| {
        let p = &t.stages;
        let picking = p.phases.median - p.reading.median;
        let all = [p.fit, p.live, p.inhale, p.phases, p.exhale].map(|stage| stage.median);
        let (without, fastest) = (t.without_exhale(), t.fastest.median);
        format!(
            "{} | {:.0} | {:.0} | {:.0} | {:.0} | {picking:.0} | {:.0} | {:.0} | {:.0} | {without:.0} | {fastest:.0} | {:.2}",
            s.live,
            p.fit.median,
            p.live.median,
            p.inhale.median,
            p.reading.median,
            p.exhale.median,
            all.iter().sum::<f64>(),
            t.proved.median,
            without / fastest
        )
    });
    let heading = "Where the nanoseconds of a slot go (N 16, S 3, 1,024 records)";
    table(heading, PARTS, &columns, rows)
}

fn growth_table(growth: &[Row]) -> String {
    let said = "Beside each time, the same by live × log₂ live: level where a slot grows as sorting does.\n\n";
    let columns = [
        "live",
        "proved",
        "by n log n",
        "by scans",
        "by n log n",
        "fastest",
        "by n log n",
    ];
    let rows = growth.iter().map(|(s, t)| {
        let live = s.live as f64;
        let times = [t.proved, t.scans, t.fastest].map(|time| {
            let median = time.median;
            format!("{median:.0} | {:.1}", median / (live * live.log2()))
        });
        format!("{} | {}", s.live, times.join(" | "))
    });
    let heading = "How the cost grows with the live cells (N 16, S 3, 1,024 records)";
    table(heading, said, &columns, rows)
}

fn line_table(lines: Option<&[Lines]>) -> String {
    let heading = "The program, in lines a second";
    let Some(lines) = lines else {
        return format!("## {heading}\n\nNot measured: no program was handed over.\n");
    };
    let said = format!(
        "Texts of {} thousand lines in which an input brings a cell in {} of 100 slots. The ratios are the plain programs' lines by the proved one's.\n\n",
        lines::LINES / 1000,
        lines::LOAD
    );
    let columns = [
        "N", "S", "records", "proved", "by scans", "ratio", "fastest", "ratio",
    ];
    let rows = lines.iter().map(|line| {
        let (proved, scans, fastest) = (line.proved, line.scans, line.fastest);
        format!(
            "{} | {} | {} | {proved:.0} | {scans:.0} | {:.2} | {fastest:.0} | {:.2}",
            line.ports,
            line.speedup,
            line.records,
            scans / proved,
            fastest / proved
        )
    });
    table(heading, &said, &columns, rows)
}
