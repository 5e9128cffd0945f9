//! One call on both sides. Everything that it gives back and leaves must be alike.

use second::generate::Call;
use second::Numbers;
use treikwater::words;

/// How often each number was given by a slot.
#[derive(Default)]
pub struct Tally {
    times: [u64; 9],
}

impl Tally {
    fn note(&mut self, number: u32) {
        self.times[number as usize] += 1;
    }

    pub fn slots(&self) -> u64 {
        self.times.iter().sum()
    }

    pub fn accepted(&self) -> u64 {
        self.times[0]
    }

    pub fn numbers(&self) -> impl Iterator<Item = (usize, u64)> + '_ {
        self.times.iter().copied().enumerate()
    }
}

fn words_of(w: Numbers) -> [u32; 3] {
    [w.ports, w.speedup, w.next]
}

fn numbers_of([ports, speedup, next]: [u32; 3]) -> Numbers {
    Numbers {
        ports,
        speedup,
        next,
    }
}

fn proved_slot(call: &mut Call) -> u32 {
    let mut numbers = words_of(call.numbers);
    let number = words::slot(
        &mut numbers,
        &mut call.table,
        &call.arrivals,
        &mut call.matches,
        &mut call.exhaled,
    );
    call.numbers = numbers_of(numbers);
    number
}

fn second_slot(call: &mut Call) -> u32 {
    let (number, numbers) = second::slot(
        call.numbers,
        &mut call.table,
        &call.arrivals,
        &mut call.matches,
        &mut call.exhaled,
    );
    call.numbers = numbers;
    number
}

/// A slot: the number, and all that was handed over as it is afterwards.
pub fn slot(call: &Call, tally: &mut Tally) -> (u32, Call) {
    let (mut ours, mut theirs) = (call.clone(), call.clone());
    let number = proved_slot(&mut ours);
    let expected = second_slot(&mut theirs);
    assert!(
        (number, &ours) == (expected, &theirs),
        "they differ on {call:?}\nproved: {number} {ours:?}\nsecond: {expected} {theirs:?}"
    );
    assert!(
        number == 0 || ours == *call,
        "refused with {number}, but changed: {call:?}"
    );
    tally.note(number);
    (number, ours)
}

/// A fresh start: the number, and the numbers and the table as they are afterwards.
pub fn fresh_start(w: Numbers, table: &[u32]) -> (u32, Numbers, Vec<u32>) {
    let (mut ours, mut theirs) = (table.to_vec(), table.to_vec());
    let mut numbers = words_of(w);
    let number = words::fresh_start(&mut numbers, &mut ours);
    let after = numbers_of(numbers);
    let expected = second::fresh_start(w, &mut theirs);
    assert!(
        (number, after) == expected && ours == theirs,
        "fresh starts differ on {w:?} and {table:?}\nproved: {number} {after:?}\nsecond: {expected:?}"
    );
    assert!(
        number == 0 || (after, ours.as_slice()) == (w, table),
        "refused with {number}, but changed: {w:?}, {table:?}"
    );
    (number, after, ours)
}

/// A list of numbers that has not three words is refused, and nothing is changed.
pub fn no_numbers(call: &Call, length: usize) {
    let mut ours = call.clone();
    let before = [call.numbers.ports, call.numbers.speedup, call.numbers.next].repeat(2);
    let mut numbers = before.clone();
    let number = words::slot(
        &mut numbers[..length],
        &mut ours.table,
        &ours.arrivals,
        &mut ours.matches,
        &mut ours.exhaled,
    );
    let start = words::fresh_start(&mut numbers[..length], &mut ours.table);
    assert_eq!((number, start), (words::NO_NUMBERS, words::NO_NUMBERS));
    assert!(ours == *call && numbers == before);
}
