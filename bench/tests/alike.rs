//! The plain slots do what the proved slot and the second program do, refusals too, and so do the proved slot's
//! stages; so their times mean something.

use bench::states::{states, Setting, State};
use bench::{proved, ranked, scans, stages, text, SlotFn};
use second::generate::{
    self, call, cells, damage_table, spread, valid_arrivals, Call, Damage, Era, Random, Record,
    Shape, Slots, Traffic, Wanted,
};
use second::{Numbers, MOST_RECORDS};

const PLAIN: [SlotFn; 2] = [scans::slot, ranked::slot];

fn run(slot: SlotFn, mut s: State) -> (u32, State) {
    (slot(s.call()), s)
}

/// The number that all three give, having left the same words.
fn agreed(s: &State) -> u32 {
    let expected = run(proved, s.clone());
    for slot in PLAIN {
        assert_eq!(run(slot, s.clone()), expected, "{s:?}");
    }
    expected.0
}

fn second_slot(call: &Call) -> (u32, State) {
    let mut after = call.clone();
    let (number, numbers) = second::slot(
        call.numbers,
        &mut after.table,
        &call.arrivals,
        &mut after.matches,
        &mut after.exhaled,
    );
    after.numbers = numbers;
    (number, of_call(after))
}

fn of_call(call: Call) -> State {
    State {
        numbers: [call.numbers.ports, call.numbers.speedup, call.numbers.next],
        table: call.table,
        arrivals: call.arrivals,
        matches: call.matches,
        exhaled: call.exhaled,
    }
}

/// Half of the inputs bring a cell.
fn state(random: &mut Random, [ports, speedup, next]: [u32; 3], table: Vec<u32>) -> State {
    let traffic = Traffic {
        load: 50,
        first_output: 0,
        outputs: ports,
    };
    let arrivals = valid_arrivals(random, ports, traffic);
    let numbers = Numbers {
        ports,
        speedup,
        next,
    };
    of_call(Call::new(random, numbers, table, arrivals))
}

/// Such cells for 16 ports in any records of the largest table.
fn large_table(random: &mut Random, slots: Slots, wanted: &[Wanted]) -> Vec<u32> {
    let cells = cells(random, 16, slots, wanted);
    spread(random, MOST_RECORDS, &cells)
}

#[test]
fn plain_slots_are_alike_on_random_calls() {
    let mut random = Random::new(5);
    for _ in 0..20_000 {
        let call = call(&mut random);
        let expected = second_slot(&call);
        for slot in PLAIN {
            assert_eq!(run(slot, of_call(call.clone())), expected, "{call:?}");
        }
    }
}

#[test]
fn all_slots_are_alike_on_the_timed_states() {
    for live in [0, 32, 256, 1000] {
        let setting = Setting {
            ports: 16,
            speedup: 8,
            records: 1024,
            live,
        };
        assert!(states(setting).iter().all(|s| agreed(s) == 0));
        states(setting).iter().for_each(stages_agree);
    }
}

/// The stages one after the other do what the slot does, but for the next slot's number.
fn stages_agree(s: &State) {
    let (_, whole) = run(proved, s.clone());
    let mut by_stages = s.clone();
    let mut call = by_stages.call();
    let cells = call.table.chunks_exact(5).filter(|cell| cell[0] != 0);
    assert_eq!(stages::live(&call), cells.count());
    assert!(stages::fit(&call));
    stages::inhale(&mut call);
    let ready = |cell: &&[u32]| (cell[0], cell[2]) == (2, 0);
    let for_output_0 = call.table.chunks_exact(5).filter(ready).count();
    assert_eq!(stages::reading(&call) as usize, for_output_0);
    stages::phases(&mut call);
    stages::exhale(&mut call);
    by_stages.numbers = whole.numbers;
    assert_eq!(by_stages, whole);
}

/// All sizes of tables at which a plain slot goes another way, fit and damaged.
#[test]
fn all_slots_are_alike_on_tables_of_all_sizes() {
    let mut random = Random::new(11);
    for records in [1, 7, 8, 9, 63, 64, 65, 255, 513, 1000, 1024] {
        for (ports, speedup) in [(1, 1), (1, 8), (2, 3), (4, 3), (16, 1), (16, 3), (16, 8)] {
            for waiting in [0, 20, 50, 90, 100] {
                for live in [0, 1, records / 20, records / 2, records - 1, records] {
                    let shape = Shape {
                        live,
                        era: random.pick(&[Era::First, Era::Last, Era::Anywhere]),
                        output: None,
                        waiting,
                    };
                    one_shape(&mut random, ports, speedup, records, shape);
                }
            }
        }
    }
}

fn one_shape(random: &mut Random, ports: u32, speedup: u32, records: usize, shape: Shape) {
    let next = random.between(1500, 100_000);
    let table = generate::shaped_table(random, ports, next, records, shape);
    let fit = state(random, [ports, speedup, next], table);
    assert!([0, 8].contains(&agreed(&fit)));
    for damage in Damage::ALL {
        let mut unfit = fit.clone();
        if damage_table(random, damage, ports, next, &mut unfit.table) {
            assert_eq!(agreed(&unfit), 4);
        }
    }
}

/// So many waiting cells that a plain slot goes another way, for any outputs, one output, or from one input.
#[test]
fn all_slots_are_alike_on_any_number_of_waiting_cells() {
    let mut random = Random::new(12);
    for waiting in [0, 1, 2, 47, 48, 49, 63, 64, 65, 255, 256, 257, 512, 1000] {
        for ready in [0, 1, 16, 1000] {
            for speedup in [1, 3, 8] {
                for (input, output) in [(None, None), (Some(5), None), (None, Some(15))] {
                    let of = |place| Wanted {
                        place,
                        input,
                        output,
                    };
                    let mut list = vec![of(1); waiting];
                    list.extend(vec![of(2); ready.min(1008 - waiting)]);
                    let table = large_table(&mut random, Slots::before(5000), &list);
                    let s = state(&mut random, [16, speedup, 5000], table);
                    assert_eq!(agreed(&s), 0);
                }
            }
        }
    }
}

/// Each output has as many ready cells as the others, so that slot and input alone decide.
#[test]
fn all_slots_are_alike_on_equal_readings() {
    let mut random = Random::new(13);
    for ready_each in [0, 1, 2, 30] {
        for waiting in [16, 60, 200, 500] {
            let mut list = vec![Wanted::WAITING; waiting];
            for output in 0..16 {
                list.extend(vec![Wanted::ready_for(output); ready_each]);
            }
            let table = large_table(&mut random, Slots::before(80), &list);
            for speedup in 1..=8 {
                let s = state(&mut random, [16, speedup, 80], table.clone());
                assert_eq!(agreed(&s), 0);
            }
        }
    }
}

/// Slots so far apart that marks kept by the low digits of a slot are met twice, without a twin and with.
#[test]
fn all_slots_are_alike_where_marks_are_met_twice() {
    let mut random = Random::new(14);
    for apart in [64, 1024, 2048] {
        for count in [2, 3, 40, 65, 500, 1000] {
            let slots = Slots {
                first: 0,
                apart,
                count,
            };
            let list: Vec<Wanted> = (0..count)
                .map(|_| Wanted::live(&mut random, Some(3)))
                .collect();
            let table = large_table(&mut random, slots, &list);
            let mut s = state(&mut random, [16, 3, slots.next()], table);
            assert_eq!(agreed(&s), 0);
            damage_table(&mut random, Damage::Twins, 16, slots.next(), &mut s.table);
            assert_eq!(agreed(&s), 4);
        }
    }
}

#[test]
fn all_slots_are_alike_in_slot_0() {
    let mut random = Random::new(16);
    let cell: Record = [1, 0, 0, 0, 5];
    for (cells, number) in [(vec![], 0), (vec![cell], 4)] {
        let table = spread(&mut random, 20, &cells);
        let s = state(&mut random, [2, 3, 0], table);
        assert_eq!(agreed(&s), number);
    }
}

#[test]
fn all_slots_are_alike_in_refusals_of_large_tables() {
    let mut random = Random::new(15);
    for live in [0, 40, 500, 1024] {
        let list = vec![Wanted::WAITING; live];
        let table = large_table(&mut random, Slots::before(3000), &list);
        let mut s = state(&mut random, [16, 3, 3000], table);
        s.arrivals = [1, 7].repeat(16);
        assert_eq!(agreed(&s), if live == 1024 { 8 } else { 0 });
        s.numbers[2] = u32::MAX;
        assert_eq!(agreed(&s), 7);
        s.arrivals[30] = 17;
        assert_eq!(agreed(&s), 6);
        s.exhaled.push(9);
        assert_eq!(agreed(&s), 5);
        s.numbers[2] = 0;
        assert_eq!(agreed(&s), if live == 0 { 5 } else { 4 });
        s.table.push(0);
        assert_eq!(agreed(&s), 3);
        s.numbers[1] = 9;
        assert_eq!(agreed(&s), 2);
        s.numbers[0] = 17;
        assert_eq!(agreed(&s), 1);
    }
}

#[test]
fn the_plain_program_is_alike_on_texts() {
    let mut random = Random::new(6);
    for _ in 0..2_000 {
        let input = generate::text(&mut random);
        for slot in PLAIN {
            let mut printed = Vec::new();
            text::run(slot, input.as_slice(), &mut printed).expect("a list takes all bytes");
            assert_eq!(printed, second::run_text(&input));
        }
    }
}
