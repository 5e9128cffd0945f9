//! Random whole calls held against the declarative rules, on the words alone: nothing here
//! computes a match; it is only asked whether the written one is the one defined.

use second::generate::{call, Call, Random};
use second::{slot, Numbers, EXHALED_WORDS, RECORD_WORDS};

#[derive(Clone, Copy, PartialEq, Eq, Debug)]
struct Record {
    place: u32,
    input: u32,
    output: u32,
    entered: u32,
    tag: u32,
}

const FREE: Record = Record {
    place: 0,
    input: 0,
    output: 0,
    entered: 0,
    tag: 0,
};

fn records(table: &[u32]) -> Vec<Record> {
    table
        .chunks_exact(RECORD_WORDS)
        .map(|words| Record {
            place: words[0],
            input: words[1],
            output: words[2],
            entered: words[3],
            tag: words[4],
        })
        .collect()
}

fn conflict(one: &Record, two: &Record) -> bool {
    one.input == two.input || one.output == two.output
}

/// The table after the inhale, from the first free record up.
fn inhaled(before: &Call) -> Vec<Record> {
    let mut table = records(&before.table);
    for (input, words) in (0..).zip(before.arrivals.chunks_exact(2)) {
        if words[0] == 0 {
            continue;
        }
        let free = table.iter_mut().find(|record| record.place == 0);
        *free.expect("room for an accepted arrival") = Record {
            place: 1,
            input,
            output: words[0] - 1,
            entered: before.numbers.next,
            tag: words[1],
        };
    }
    table
}

/// The oldest waiting cell from this input to this output.
fn served(table: &[Record], input: u32, output: u32) -> usize {
    (0..table.len())
        .filter(|&number| {
            let record = table[number];
            record.place == 1 && record.input == input && record.output == output
        })
        .min_by_key(|&number| table[number].entered)
        .expect("a cell for a written match")
}

/// Moves the cells of one written phase after holding them against the definition.
fn check_phase(table: &mut [Record], reading: &[usize], words: &[u32]) {
    let inside: Vec<usize> = (0..)
        .zip(words)
        .filter(|(_, &word)| word != 0)
        .map(|(output, &word)| served(table, word - 1, output))
        .collect();
    let standing = |record: &Record| {
        (
            reading[record.output as usize],
            record.entered,
            record.input,
        )
    };
    for (number, cell) in table.iter().enumerate().filter(|(_, cell)| cell.place == 1) {
        let mut others = inside
            .iter()
            .filter(|&&one| one != number)
            .map(|&one| &table[one]);
        if inside.contains(&number) {
            assert!(others.all(|one| !conflict(one, cell)));
        } else {
            assert!(others.any(|one| conflict(one, cell) && standing(one) < standing(cell)));
        }
    }
    for number in inside {
        table[number].place = 2;
    }
}

/// Frees the emitted cells after holding them against the rule of the exhale.
fn check_exhale(table: &mut [Record], exhaled: &[u32]) {
    for (output, words) in (0..).zip(exhaled.chunks_exact(EXHALED_WORDS)) {
        let first = (0..table.len())
            .filter(|&number| table[number].place == 2 && table[number].output == output)
            .min_by_key(|&number| (table[number].entered, table[number].input));
        let Some(number) = first else {
            assert_eq!(words, [0; EXHALED_WORDS]);
            continue;
        };
        let Record {
            input,
            entered,
            tag,
            ..
        } = table[number];
        assert_eq!(words, [1, input, entered, tag]);
        table[number] = FREE;
    }
}

fn check_accepted(before: &Call, after: &Call) {
    let Numbers { ports, next, .. } = before.numbers;
    assert_eq!(
        after.numbers,
        Numbers {
            next: next + 1,
            ..before.numbers
        }
    );
    let mut table = inhaled(before);
    let reading: Vec<usize> = (0..ports)
        .map(|output| {
            let ready = |record: &&Record| record.place == 2 && record.output == output;
            table.iter().filter(ready).count()
        })
        .collect();
    for words in after.matches.chunks_exact(ports as usize) {
        check_phase(&mut table, &reading, words);
    }
    check_exhale(&mut table, &after.exhaled);
    assert_eq!(table, records(&after.table));
}

#[test]
fn random_calls_do_what_is_declared() {
    let mut random = Random::new(11);
    for _ in 0..30_000 {
        let before = call(&mut random);
        let mut after = before.clone();
        let (number, numbers) = slot(
            after.numbers,
            &mut after.table,
            &after.arrivals,
            &mut after.matches,
            &mut after.exhaled,
        );
        after.numbers = numbers;
        if number == 0 {
            check_accepted(&before, &after);
        } else {
            assert_eq!(before, after);
        }
    }
}
