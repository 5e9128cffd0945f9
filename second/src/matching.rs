//! The reading and the match of one transfer phase (document 01, "One slot", 2 and 3).
//!
//! The match is the set of waiting cells without a conflict inside it, such that each waiting cell
//! outside it conflicts with one inside that stands before it. Read for a single cell: it is in the
//! match exactly when no conflicting cell that stands before it is in the match.

use std::collections::{BTreeMap, BTreeSet};

use crate::cells::{Cells, Identity, Input, Output, Slot};

/// The ready cells counted for each output. An output that is not listed has none.
pub struct Reading(BTreeMap<Output, usize>);

impl Reading {
    pub fn of(ready: &Cells) -> Reading {
        let mut counts = BTreeMap::new();
        for content in ready.values() {
            *counts.entry(content.output).or_insert(0) += 1;
        }
        Reading(counts)
    }

    fn count(&self, output: Output) -> usize {
        self.0.get(&output).copied().unwrap_or(0)
    }
}

/// A waiting cell as the match sees it; a lower one stands before a higher one. The output comes
/// last and never decides, since no two cells share slot and input.
#[derive(Clone, Copy, PartialEq, Eq, PartialOrd, Ord, Debug)]
struct Candidate {
    reading: usize,
    entered: Slot,
    input: Input,
    output: Output,
}

impl Candidate {
    fn conflicts_with(self, other: Candidate) -> bool {
        self.input == other.input || self.output == other.output
    }

    fn identity(self) -> Identity {
        Identity {
            entered: self.entered,
            input: self.input,
        }
    }
}

pub fn matched(waiting: &Cells, reading: &Reading) -> BTreeSet<Identity> {
    let all = candidates(waiting, reading);
    let mut known = BTreeMap::new();
    // Asked in rising order, every answer that a later question needs is known already.
    all.iter()
        .filter(|&&cell| is_matched(cell, &all, &mut known))
        .map(|cell| cell.identity())
        .collect()
}

fn candidates(waiting: &Cells, reading: &Reading) -> BTreeSet<Candidate> {
    waiting
        .iter()
        .map(|(identity, content)| Candidate {
            reading: reading.count(content.output),
            entered: identity.entered,
            input: identity.input,
            output: content.output,
        })
        .collect()
}

fn is_matched(
    cell: Candidate,
    all: &BTreeSet<Candidate>,
    known: &mut BTreeMap<Candidate, bool>,
) -> bool {
    if let Some(&answer) = known.get(&cell) {
        return answer;
    }
    let shut_out = all
        .range(..cell)
        .any(|&earlier| earlier.conflicts_with(cell) && is_matched(earlier, all, known));
    known.insert(cell, !shut_out);
    !shut_out
}

#[cfg(test)]
mod tests {
    //! The definition itself, tried on every set of cells there is.

    use super::*;
    use crate::cells::Content;
    use crate::generate::Random;

    fn satisfies_definition(inside: &BTreeSet<Candidate>, all: &BTreeSet<Candidate>) -> bool {
        let peaceful = inside
            .iter()
            .all(|&one| inside.range(..one).all(|&two| !one.conflicts_with(two)));
        let answered = all.difference(inside).all(|&outside| {
            inside
                .iter()
                .any(|&one| one.conflicts_with(outside) && one < outside)
        });
        peaceful && answered
    }

    fn subset(all: &BTreeSet<Candidate>, mask: u32) -> BTreeSet<Candidate> {
        all.iter()
            .enumerate()
            .filter(|&(place, _)| mask >> place & 1 == 1)
            .map(|(_, &cell)| cell)
            .collect()
    }

    fn random_cells(random: &mut Random, ports: u32, most: u32) -> Cells {
        let count = random.between(0, most);
        (0..count)
            .map(|_| {
                let identity = Identity {
                    entered: Slot(random.between(0, 5)),
                    input: Input(random.between(0, ports - 1)),
                };
                let content = Content {
                    output: Output(random.between(0, ports - 1)),
                    tag: 0,
                    record: 0,
                };
                (identity, content)
            })
            .collect()
    }

    #[test]
    fn exactly_one_set_satisfies_the_definition_and_it_is_ours() {
        let mut random = Random::new(1);
        for _ in 0..400 {
            let ports = random.between(1, 5);
            let reading = Reading::of(&random_cells(&mut random, ports, 8));
            let waiting = random_cells(&mut random, ports, 10);
            let all = candidates(&waiting, &reading);
            let answers: Vec<BTreeSet<Identity>> = (0..1 << all.len())
                .map(|mask| subset(&all, mask))
                .filter(|inside| satisfies_definition(inside, &all))
                .map(|inside| inside.into_iter().map(Candidate::identity).collect())
                .collect();
            assert_eq!(answers, vec![matched(&waiting, &reading)]);
        }
    }
}
