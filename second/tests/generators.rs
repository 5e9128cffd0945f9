//! The generators keep their word: fit tables are fit, each damage is a damage, and random calls
//! reach every number of document 01.

use second::generate::{
    arrivals, call, cells, damage_table, fit_table, records, shaped_table, spoil_arrivals,
    spoil_length, spread, valid_arrivals, valid_numbers, Damage, Era, Random, Shape, Slots,
    Traffic, Wanted,
};
use second::{slot, Numbers, EXHALED_WORDS, MOST_RECORDS, RECORD_WORDS};

/// The number that a slot with these arrivals and right list lengths gives.
fn number(w: Numbers, table: &[u32], arrivals: &[u32]) -> u32 {
    let ports = w.ports as usize;
    let mut matches = vec![0; w.speedup as usize * ports];
    let mut exhaled = vec![0; EXHALED_WORDS * ports];
    let mut table = table.to_vec();
    slot(w, &mut table, arrivals, &mut matches, &mut exhaled).0
}

fn no_arrivals(w: Numbers) -> Vec<u32> {
    vec![0; 2 * w.ports as usize]
}

fn is_fit(w: Numbers, table: &[u32]) -> bool {
    matches!(number(w, table, &no_arrivals(w)), 0 | 7)
}

fn live(table: &[u32]) -> Vec<&[u32]> {
    table
        .chunks_exact(RECORD_WORDS)
        .filter(|record| record[0] != 0)
        .collect()
}

#[test]
fn fit_tables_are_fit() {
    let mut random = Random::new(5);
    for _ in 0..3_000 {
        let w = valid_numbers(&mut random);
        let length = records(&mut random);
        let table = fit_table(&mut random, w.ports, w.next, length);
        assert_eq!(table.len(), length * RECORD_WORDS);
        assert!(is_fit(w, &table), "{w:?} {table:?}");
    }
}

#[test]
fn shapes_are_as_asked() {
    let mut random = Random::new(6);
    for era in [Era::First, Era::Last, Era::Anywhere] {
        for next in [1_000, u32::MAX] {
            let full = Shape::full(MOST_RECORDS, era);
            let table = shaped_table(&mut random, 4, next, MOST_RECORDS, full);
            assert_eq!(live(&table).len(), MOST_RECORDS);
            let one = Shape::one_output(50, era, 3);
            let table = shaped_table(&mut random, 4, next, 60, one);
            assert_eq!(live(&table).len(), 50);
            assert!(live(&table)
                .iter()
                .all(|record| record[0] == 1 && record[2] == 3));
        }
    }
    let empty = shaped_table(&mut random, 4, 9, 60, Shape::EMPTY);
    assert!(live(&empty).is_empty());
    let before_time = shaped_table(&mut random, 4, 0, 60, Shape::full(60, Era::Last));
    assert!(live(&before_time).is_empty());
}

#[test]
fn chosen_cells_are_as_asked() {
    let mut random = Random::new(10);
    let slots = Slots {
        first: 7,
        apart: 1_024,
        count: 40,
    };
    let from_one = Wanted {
        input: Some(3),
        ..Wanted::WAITING
    };
    let wanted = [vec![from_one; 40], vec![Wanted::ready_for(2); 20]].concat();
    let chosen = cells(&mut random, 4, slots, &wanted);
    let table = spread(&mut random, 64, &chosen);
    assert_eq!(live(&table), chosen);
    let w = Numbers {
        ports: 4,
        speedup: 3,
        next: slots.next(),
    };
    assert!(is_fit(w, &table) && w.next == 7 + 39 * 1_024 + 1);
    let waiting: Vec<_> = chosen.iter().filter(|cell| cell[0] == 1).collect();
    assert!(waiting.len() == 40 && waiting.iter().all(|cell| cell[1] == 3));
    let ready: Vec<_> = chosen.iter().filter(|cell| cell[0] == 2).collect();
    assert!(ready.len() == 20 && ready.iter().all(|cell| cell[2] == 2));
}

#[test]
fn slots_lie_near_both_ends() {
    let mut random = Random::new(7);
    let mut slots = Vec::new();
    for _ in 0..500 {
        let table = fit_table(&mut random, 4, u32::MAX, 20);
        slots.extend(live(&table).iter().map(|record| record[3]));
    }
    assert!(slots.contains(&0));
    assert!(slots.contains(&(u32::MAX - 1)));
    assert!(slots.iter().any(|slot| (1 << 16..1 << 31).contains(slot)));
}

#[test]
fn each_damage_makes_a_table_unfit() {
    let mut random = Random::new(8);
    for damage in Damage::ALL {
        let mut damaged = 0;
        for _ in 0..1_000 {
            let w = valid_numbers(&mut random);
            let length = records(&mut random);
            let fit = fit_table(&mut random, w.ports, w.next, length);
            let mut table = fit.clone();
            if damage_table(&mut random, damage, w.ports, w.next, &mut table) {
                damaged += 1;
                assert_eq!(number(w, &table, &no_arrivals(w)), 4, "{damage:?} {w:?}");
            } else {
                assert_eq!(table, fit);
            }
        }
        assert!(damaged > 300, "{damage:?}: {damaged}");
    }
}

#[test]
fn arrivals_are_valid_until_spoiled() {
    let mut random = Random::new(9);
    for _ in 0..2_000 {
        let w = Numbers {
            next: 0,
            ..valid_numbers(&mut random)
        };
        let table = vec![0; MOST_RECORDS * RECORD_WORDS];
        let traffic = Traffic::random(&mut random, w.ports);
        let mut list = valid_arrivals(&mut random, w.ports, traffic);
        assert_eq!(number(w, &table, &list), 0);
        spoil_arrivals(&mut random, w.ports, &mut list);
        assert_eq!(number(w, &table, &list), 6);
        spoil_length(&mut random, &mut list);
        assert_eq!(number(w, &table, &list), 5);
        let mostly = arrivals(&mut random, w.ports);
        assert!(matches!(number(w, &table, &mostly), 0 | 6));
    }
}

#[test]
fn random_calls_reach_every_number() {
    let mut random = Random::new(10);
    let mut given = [0; 9];
    for _ in 0..20_000 {
        let mut call = call(&mut random);
        let (number, _) = slot(
            call.numbers,
            &mut call.table,
            &call.arrivals,
            &mut call.matches,
            &mut call.exhaled,
        );
        given[number as usize] += 1;
    }
    assert!(given.iter().all(|&times| times > 200), "{given:?}");
    assert!(given[0] > 5_000, "{given:?}");
}
