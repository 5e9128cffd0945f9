//! Each refusal by its number, with nothing changed, and a switch that is emptied slot by slot.

use treikwater::{Arrival, Emitted, Refusal, Switch, Table};

const LAST: u32 = u32::MAX;

fn cell(output: u32) -> Option<Arrival> {
    Some(Arrival { output, tag: 5 })
}

/// A slot that must be refused.
fn refusal(mut switch: Switch, words: &[u32], arrivals: &[Option<Arrival>]) -> u32 {
    let mut table = Table::from_words(words.to_vec());
    let before = (switch.clone(), table.clone());
    let refused = switch
        .slot(&mut table, arrivals)
        .expect_err("a refused slot");
    assert_eq!(before, (switch, table));
    refused.number()
}

#[test]
fn fresh_starts_are_refused_by_number() {
    for (ports, speedup, records, number) in [
        (0, 9, 0, 1),
        (17, 3, 4, 1),
        (LAST, 3, 4, 1),
        (2, 0, 4, 2),
        (2, 9, 4, 2),
        (2, 3, 0, 3),
        (2, 3, 1025, 3),
    ] {
        let mut table = Table::free(records);
        let refused = Switch::fresh_start(ports, speedup, &mut table);
        assert_eq!(refused.map_err(Refusal::number), Err(number));
    }
}

#[test]
fn slots_are_refused_by_number() {
    let good = || Switch::from_numbers(1, 1, 5);
    let full = [1, 0, 0, 4, 9];
    let with = |ports, speedup, next| Switch::from_numbers(ports, speedup, next);
    assert_eq!(refusal(with(LAST, 1, 5), &full, &[None]), 1);
    assert_eq!(refusal(with(1, LAST, 5), &full, &[None]), 2);
    assert_eq!(refusal(good(), &full[..4], &[None]), 3);
    assert_eq!(refusal(with(1, 1, 4), &full, &[None]), 4);
    assert_eq!(refusal(good(), &full, &[None, None]), 5);
    assert_eq!(refusal(good(), &full, &[cell(1)]), 6);
    assert_eq!(refusal(good(), &full, &[cell(LAST)]), 6);
    assert_eq!(refusal(with(1, 1, LAST), &full, &[cell(0)]), 7);
    assert_eq!(refusal(good(), &full, &[cell(0)]), 8);
}

#[test]
fn three_cells_for_one_output_leave_in_turn() {
    let mut table = Table::from_words(vec![7; 15]);
    let mut switch = Switch::fresh_start(3, 3, &mut table).expect("good sizes");
    let mut arrivals = [cell(2); 3];
    for input in 0..3 {
        let outcome = switch.slot(&mut table, &arrivals).expect("room for all");
        let emitted = Emitted {
            output: 2,
            input,
            entered: 0,
            tag: 5,
        };
        assert_eq!(outcome.emitted().collect::<Vec<_>>(), [emitted]);
        arrivals = [None; 3];
    }
    assert_eq!((switch.next(), table.live()), (3, 0));
}

#[test]
fn a_refusal_says_its_number_and_its_reason() {
    for number in 1..=8 {
        let refusal = Refusal::from_number(number).expect("one of eight");
        assert_eq!(refusal.number(), number);
        assert!(!refusal.to_string().is_empty());
    }
    assert_eq!(Refusal::from_number(0), None);
    assert_eq!(Refusal::from_number(9), None);
}
