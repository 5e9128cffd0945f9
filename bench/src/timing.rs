//! The clock: each function in turn over the same states, round after round, and the median.

use std::hint::black_box;
use std::time::Instant;

use bench::states::{states, Setting, State, STATES};
use bench::{proved, ranked, scans, stages, Call, SlotFn};

/// Every setting is come back to so many times, so that a slow while of the machine meets them all.
const PASSES: usize = 9;
const ROUNDS: usize = 25;

/// Nanoseconds a slot: the median of all rounds, and the quartiles beside it.
#[derive(Clone, Copy)]
pub struct Time {
    pub low: f64,
    pub median: f64,
    pub high: f64,
}

impl Time {
    fn of(mut samples: Vec<f64>) -> Time {
        samples.sort_by(f64::total_cmp);
        let at = |quarter: usize| samples[samples.len() * quarter / 4];
        Time {
            low: at(1),
            median: at(2),
            high: at(3),
        }
    }
}

#[derive(Clone, Copy)]
pub struct Times {
    pub proved: Time,
    pub scans: Time,
    pub fastest: Time,
    pub stages: Stages,
    /// One read of the table.
    pub read: Time,
}

/// The stages of the proved slot, called one by one.
#[derive(Clone, Copy)]
pub struct Stages {
    pub fit: Time,
    pub live: Time,
    pub inhale: Time,
    pub reading: Time,
    /// With the reading.
    pub phases: Time,
    pub exhale: Time,
}

impl Times {
    pub fn without_exhale(&self) -> f64 {
        self.proved.median - self.stages.exhale.median
    }
}

/// How far the slot of the states has come where a function is timed.
#[derive(Clone, Copy)]
enum After {
    Nothing,
    Inhale,
    Phases,
}

/// What is timed; it gives 0.
struct Timed {
    slot: SlotFn,
    after: After,
}

impl Timed {
    const fn slot(slot: SlotFn) -> Timed {
        Timed::stage(After::Nothing, slot)
    }

    const fn stage(after: After, slot: SlotFn) -> Timed {
        Timed { slot, after }
    }
}

const TIMED: [Timed; 10] = [
    Timed::slot(proved),
    Timed::slot(scans::slot),
    Timed::slot(ranked::slot),
    Timed::stage(After::Nothing, |call| u32::from(!stages::fit(&call))),
    Timed::stage(After::Nothing, |call| {
        black_box(stages::live(&call));
        0
    }),
    Timed::stage(After::Nothing, |mut call| {
        stages::inhale(&mut call);
        0
    }),
    Timed::stage(After::Inhale, |call| {
        black_box(stages::reading(&call));
        0
    }),
    Timed::stage(After::Inhale, |mut call| {
        stages::phases(&mut call);
        0
    }),
    Timed::stage(After::Phases, |mut call| {
        stages::exhale(&mut call);
        0
    }),
    Timed::slot(read),
];

fn read(call: Call) -> u32 {
    let words = call.table.iter();
    black_box(words.fold(0u32, |sum, &word| sum.wrapping_add(word)));
    0
}

pub fn time(settings: &[Setting]) -> Vec<Times> {
    let mut clocks: Vec<Clock> = settings.iter().map(|&s| Clock::of(s)).collect();
    for _ in 0..PASSES {
        clocks.iter_mut().for_each(Clock::pass);
    }
    clocks.into_iter().map(Clock::times).collect()
}

/// The states of one setting, and what was measured on them so far.
struct Clock {
    states: Batch,
    inhaled: Batch,
    moved: Batch,
    samples: [Vec<f64>; TIMED.len()],
}

impl Clock {
    fn of(setting: Setting) -> Clock {
        let states = states(setting);
        let inhaled = each(&states, stages::inhale);
        let moved = each(&inhaled, stages::phases);
        Clock {
            states: Batch::of(states),
            inhaled: Batch::of(inhaled),
            moved: Batch::of(moved),
            samples: Default::default(),
        }
    }

    fn pass(&mut self) {
        for _ in 0..ROUNDS {
            for (timed, samples) in TIMED.iter().zip(&mut self.samples) {
                let batch = match timed.after {
                    After::Nothing => &mut self.states,
                    After::Inhale => &mut self.inhaled,
                    After::Phases => &mut self.moved,
                };
                samples.push(nanoseconds(timed, batch.restored()));
            }
        }
    }

    fn times(self) -> Times {
        let [proved, scans, fastest, fit, live, inhale, reading, phases, exhale, read] =
            self.samples.map(Time::of);
        Times {
            proved,
            scans,
            fastest,
            stages: Stages {
                fit,
                live,
                inhale,
                reading,
                phases,
                exhale,
            },
            read,
        }
    }
}

/// The states as a stage of their slot leaves them.
fn each(states: &[State], stage: fn(&mut Call)) -> Vec<State> {
    let mut after = states.to_vec();
    after.iter_mut().for_each(|s| stage(&mut s.call()));
    after
}

/// States, and a copy of each to work on.
struct Batch {
    from: Vec<State>,
    work: Vec<State>,
}

impl Batch {
    fn of(from: Vec<State>) -> Batch {
        Batch {
            work: from.clone(),
            from,
        }
    }

    /// Outside the timed part; leaves the tables in the cache for every function alike.
    fn restored(&mut self) -> &mut [State] {
        for (to, from) in self.work.iter_mut().zip(&self.from) {
            to.numbers = from.numbers;
            to.table.copy_from_slice(&from.table);
        }
        &mut self.work
    }
}

fn nanoseconds(timed: &Timed, work: &mut [State]) -> f64 {
    let start = Instant::now();
    for s in work {
        assert_eq!(black_box(timed.slot)(s.call()), 0);
    }
    start.elapsed().as_nanos() as f64 / STATES as f64
}
