//! Every example of document 01's "Examples from the bench", and the shortcuts it sends back.

use second::{fresh_start, slot, Numbers, EXHALED_WORDS, RECORD_WORDS};

const NONE: (u32, u32) = (0, 0);
const LAST: u32 = u32::MAX;

/// A switch between calls.
struct Switch {
    numbers: Numbers,
    table: Vec<u32>,
}

/// What an accepted slot wrote.
#[derive(PartialEq, Eq, Debug)]
struct Written {
    matches: Vec<u32>,
    exhaled: Vec<[u32; 4]>,
}

fn numbers(ports: u32, speedup: u32, next: u32) -> Numbers {
    Numbers {
        ports,
        speedup,
        next,
    }
}

fn fresh(ports: u32, speedup: u32, records: usize) -> (u32, Switch) {
    let mut table = vec![7; records * RECORD_WORDS];
    let (number, numbers) = fresh_start(numbers(ports, speedup, 9), &mut table);
    (number, Switch { numbers, table })
}

fn started(ports: u32, speedup: u32, records: usize) -> Switch {
    let (number, switch) = fresh(ports, speedup, records);
    assert_eq!(number, 0);
    switch
}

fn held(numbers: Numbers, records: &[[u32; 5]]) -> Switch {
    let table = records.concat();
    Switch { numbers, table }
}

impl Switch {
    /// Runs a slot with a first word and a tag for each input; a refusal must change nothing.
    fn slot(&mut self, arrivals: &[(u32, u32)]) -> Result<Written, u32> {
        let words: Vec<u32> = arrivals
            .iter()
            .flat_map(|&(word, tag)| [word, tag])
            .collect();
        let ports = self.numbers.ports as usize;
        let mut matches = vec![99; self.numbers.speedup as usize * ports];
        let mut exhaled = vec![99; EXHALED_WORDS * ports];
        let before = (
            self.numbers,
            self.table.clone(),
            matches.clone(),
            exhaled.clone(),
        );
        let (number, after) = slot(
            self.numbers,
            &mut self.table,
            &words,
            &mut matches,
            &mut exhaled,
        );
        if number != 0 {
            assert_eq!(before, (after, self.table.clone(), matches, exhaled));
            return Err(number);
        }
        let next = self.numbers.next + 1;
        assert_eq!(
            after,
            Numbers {
                next,
                ..self.numbers
            }
        );
        self.numbers = after;
        let exhaled = exhaled
            .chunks_exact(EXHALED_WORDS)
            .map(|words| words.try_into().expect("four words"))
            .collect();
        Ok(Written { matches, exhaled })
    }

    fn accepted(&mut self, arrivals: &[(u32, u32)]) -> Written {
        self.slot(arrivals).expect("an accepted slot")
    }

    fn live(&self) -> usize {
        self.table
            .chunks_exact(RECORD_WORDS)
            .filter(|record| record[0] != 0)
            .count()
    }
}

#[test]
fn fresh_starts() {
    assert_eq!(fresh(16, 3, 4).0, 0);
    assert_eq!(fresh(17, 3, 4).0, 1);
    assert_eq!(fresh(0, 9, 4).0, 1);
    assert_eq!(fresh(2, 8, 4).0, 0);
    assert_eq!(fresh(2, 9, 4).0, 2);
    assert_eq!(fresh(2, 0, 4).0, 2);
    assert_eq!(fresh(2, 3, 1024).0, 0);
    assert_eq!(fresh(2, 3, 1025).0, 3);
    assert_eq!(fresh(2, 3, 0).0, 3);
}

#[test]
fn an_accepted_fresh_start_clears_and_a_refused_one_leaves() {
    let (_, done) = fresh(16, 3, 4);
    assert_eq!(done.numbers, numbers(16, 3, 0));
    assert_eq!(done.table, vec![0; 20]);
    for (ports, speedup, records) in [(17, 3, 4), (2, 9, 4), (2, 3, 1025)] {
        let (_, refused) = fresh(ports, speedup, records);
        assert_eq!(refused.numbers, numbers(ports, speedup, 9));
        assert!(refused.table.iter().all(|&word| word == 7));
    }
}

#[test]
fn words_that_make_no_records_are_refused_after_the_numbers() {
    let mut table = [7; 11];
    assert_eq!(fresh_start(numbers(2, 3, 9), &mut table).0, 3);
    assert_eq!(fresh_start(numbers(2, 9, 9), &mut table).0, 2);
    assert_eq!(fresh_start(numbers(17, 9, 9), &mut table).0, 1);
    let answer = slot(numbers(2, 3, 9), &mut table, &[], &mut [], &mut []);
    assert_eq!(answer, (3, numbers(2, 3, 9)));
    assert_eq!(table, [7; 11]);
}

#[test]
fn a_live_record_of_slot_t_is_not_fit() {
    let mut switch = held(numbers(2, 3, 5), &[[1, 0, 0, 5, 0]]);
    assert_eq!(switch.slot(&[NONE, NONE]), Err(4));
}

#[test]
fn a_free_record_with_a_tag_is_not_fit() {
    let mut switch = held(numbers(2, 3, 5), &[[0, 0, 0, 0, 5]]);
    assert_eq!(switch.slot(&[NONE, NONE]), Err(4));
}

#[test]
fn equal_slot_and_input_is_not_fit() {
    for places in [[1, 1], [1, 2], [2, 1], [2, 2]] {
        let records = [[places[0], 1, 0, 4, 7], [places[1], 1, 1, 4, 8]];
        let mut switch = held(numbers(2, 3, 5), &records);
        assert_eq!(switch.slot(&[NONE, NONE]), Err(4));
    }
}

#[test]
fn equal_slot_output_and_tag_is_fit() {
    let records = [[1, 0, 1, 4, 7], [1, 1, 1, 4, 7]];
    let mut switch = held(numbers(2, 3, 5), &records);
    let written = switch.accepted(&[NONE, NONE]);
    assert_eq!(written.exhaled, [[0; 4], [1, 0, 4, 7]]);
    assert_eq!(switch.table, [[0; 5], [2, 1, 1, 4, 7]].concat());
}

#[test]
fn an_arrival_word_above_n_comes_before_room() {
    let full = [[2, 0, 0, 0, 1], [2, 1, 0, 0, 2]];
    let mut switch = held(numbers(2, 3, 5), &full);
    assert_eq!(switch.slot(&[(3, 0), NONE]), Err(6));
    assert_eq!(switch.slot(&[(1, 0), (3, 0)]), Err(6));
    assert_eq!(switch.slot(&[(2, 0), NONE]), Err(8));
    let mut roomy = started(2, 3, 2);
    assert!(roomy.slot(&[(2, 0), NONE]).is_ok());
}

#[test]
fn time_ends() {
    let mut spent = held(numbers(2, 3, LAST), &[[0; 5]]);
    assert_eq!(spent.slot(&[NONE, NONE]), Err(7));
    let mut last = held(numbers(2, 3, LAST - 1), &[[0; 5]]);
    assert!(last.slot(&[NONE, NONE]).is_ok());
    assert_eq!(last.numbers.next, LAST);
    assert_eq!(last.slot(&[NONE, NONE]), Err(7));
    assert_eq!(last.slot(&[NONE, (3, 0)]), Err(6));
}

#[test]
fn a_table_of_one() {
    let mut switch = started(2, 3, 1);
    assert_eq!(switch.slot(&[(1, 5), (1, 6)]), Err(8));
    for entered in 0..2 {
        let written = switch.accepted(&[(1, 5), NONE]);
        assert_eq!(written.exhaled, [[1, 0, entered, 5], [0; 4]]);
        assert_eq!(switch.live(), 0);
    }
}

#[test]
fn a_table_of_two() {
    let mut switch = started(2, 3, 2);
    switch.accepted(&[(1, 5), (1, 6)]);
    assert_eq!(switch.live(), 1);
    assert_eq!(switch.slot(&[(1, 7), (1, 8)]), Err(8));
    assert!(switch.slot(&[(1, 7), NONE]).is_ok());
}

#[test]
fn a_full_table_without_arrivals_runs_unless_t_is_spent() {
    let full = [[1, 0, 0, 0, 1], [2, 1, 0, 0, 2]];
    for (next, number) in [(1, None), (LAST - 1, None), (LAST, Some(7))] {
        let mut switch = held(numbers(2, 3, next), &full);
        assert_eq!(switch.slot(&[NONE, NONE]).err(), number);
    }
}

#[test]
fn three_cells_for_one_output_leave_in_turn() {
    let mut switch = started(3, 3, 3);
    let mut left = vec![switch.accepted(&[(3, 10), (3, 11), (3, 12)])];
    left.push(switch.accepted(&[NONE; 3]));
    left.push(switch.accepted(&[NONE; 3]));
    for (input, written) in (0..).zip(left) {
        assert_eq!(written.exhaled, [[0; 4], [0; 4], [1, input, 0, 10 + input]]);
    }
    assert_eq!(switch.live(), 0);
}

#[test]
fn the_younger_cell_moves_to_the_empty_output() {
    let records = [[2, 1, 0, 2, 0], [1, 0, 0, 3, 0], [1, 0, 1, 4, 0]];
    let mut switch = held(numbers(2, 1, 5), &records);
    let written = switch.accepted(&[NONE, NONE]);
    assert_eq!(written.matches, [0, 1]);
    assert_eq!(written.exhaled, [[1, 1, 2, 0], [1, 0, 4, 0]]);
}

#[test]
fn the_counts_are_read_once() {
    let records = [
        [1, 0, 0, 1, 0],
        [1, 1, 2, 0, 0],
        [1, 1, 0, 2, 0],
        [1, 1, 1, 3, 0],
    ];
    let mut switch = held(numbers(3, 2, 4), &records);
    let written = switch.accepted(&[NONE; 3]);
    assert_eq!(written.matches, [1, 0, 2, 2, 0, 0]);
}

#[test]
fn a_speedup_of_one_lets_a_cell_be_late() {
    let mut switch = started(2, 1, 4);
    switch.accepted(&[(1, 0), (1, 0)]);
    let second = switch.accepted(&[NONE, (2, 5)]);
    assert_eq!(second.exhaled[1], [0; 4]);
    let third = switch.accepted(&[NONE, NONE]);
    assert_eq!(third.exhaled[1], [1, 1, 1, 5]);
}

#[test]
fn going_input_by_input_would_move_the_younger() {
    let records = [[1, 0, 0, 2, 0], [1, 1, 0, 1, 0]];
    let mut switch = held(numbers(2, 1, 5), &records);
    assert_eq!(switch.accepted(&[NONE, NONE]).matches, [2, 0]);
}

#[test]
fn a_waiting_cell_is_not_emitted_though_it_is_older() {
    let records = [[2, 0, 0, 4, 9], [1, 1, 0, 1, 8], [1, 1, 1, 3, 7]];
    let mut switch = held(numbers(2, 1, 5), &records);
    let written = switch.accepted(&[NONE, NONE]);
    assert_eq!(written.matches, [0, 2]);
    assert_eq!(written.exhaled, [[1, 0, 4, 9], [1, 1, 3, 7]]);
    assert_eq!(switch.table, [[0; 5], records[1], [0; 5]].concat());
}

#[test]
fn arriving_cells_take_the_lowest_free_records() {
    let records = [[0; 5], [2, 0, 0, 0, 9], [0; 5], [0; 5]];
    let mut switch = held(numbers(3, 1, 5), &records);
    switch.accepted(&[(1, 20), (1, 21), (1, 22)]);
    // Input 0 moves and stays, the older ready cell of record 1 leaves.
    let after = [[2, 0, 0, 5, 20], [0; 5], [1, 1, 0, 5, 21], [1, 2, 0, 5, 22]];
    assert_eq!(switch.table, after.concat());
}

#[test]
fn the_first_check_that_holds_is_the_answer() {
    // Wrong in all eight ways; each step mends the one that was answered.
    let mut w = numbers(0, 0, LAST);
    let mut table = vec![3, 0, 0, 0, 0, 0];
    let mut arrivals = vec![2, 0, 0];
    let (mut matches, mut exhaled) = ([0; 1], [0; 4]);
    for expected in 1..=8 {
        let answer = slot(w, &mut table, &arrivals, &mut matches, &mut exhaled);
        assert_eq!(answer, (expected, w));
        match expected {
            1 => w.ports = 1,
            2 => w.speedup = 1,
            3 => table.truncate(RECORD_WORDS),
            4 => table[0] = 1,
            5 => arrivals.truncate(2),
            6 => arrivals[0] = 1,
            7 => w.next = 1,
            _ => arrivals[0] = 0,
        }
    }
    let answer = slot(w, &mut table, &arrivals, &mut matches, &mut exhaled);
    assert_eq!(answer, (0, numbers(1, 1, 2)));
}
