//! The stages of the proved slot, each a call of its own. They ask of the words what a slot that is accepted has
//! checked or done before: the states have it.

use crate::Call;

extern "C" {
    fn treikwater_stage_fit(table: *const u32, length: usize, ports: u32, next: u32) -> bool;
    fn treikwater_stage_live(table: *const u32, length: usize) -> usize;
    fn treikwater_stage_inhale(
        table: *mut u32,
        length: usize,
        arrivals: *const u32,
        arrivals_length: usize,
        ports: u32,
        next: u32,
    );
    fn treikwater_stage_reading(table: *const u32, length: usize, output: u32) -> u32;
    fn treikwater_stage_phases(
        table: *mut u32,
        length: usize,
        matches: *mut u32,
        matches_length: usize,
        ports: u32,
        speedup: u32,
    );
    fn treikwater_stage_exhale(
        table: *mut u32,
        length: usize,
        exhaled: *mut u32,
        exhaled_length: usize,
        ports: u32,
    );
}

pub fn fit(call: &Call) -> bool {
    let [ports, _, next] = *call.numbers;
    // SAFETY: the pointer and the length are a reference's; any words will do.
    unsafe { treikwater_stage_fit(call.table.as_ptr(), call.table.len(), ports, next) }
}

pub fn live(call: &Call) -> usize {
    // SAFETY: as above.
    unsafe { treikwater_stage_live(call.table.as_ptr(), call.table.len()) }
}

pub fn inhale(call: &mut Call) {
    let [ports, _, next] = *call.numbers;
    assert!(call.arrivals.len() >= 2 * ports as usize);
    // SAFETY: pointers and lengths are references', the table's an exclusive one; two words for each port.
    unsafe {
        treikwater_stage_inhale(
            call.table.as_mut_ptr(),
            call.table.len(),
            call.arrivals.as_ptr(),
            call.arrivals.len(),
            ports,
            next,
        )
    }
}

pub fn reading(call: &Call) -> u32 {
    assert!(call.table.len() <= 5 * 1024);
    // SAFETY: as for `fit`; no more than 1,024 records, and output 0 is one of 16.
    unsafe { treikwater_stage_reading(call.table.as_ptr(), call.table.len(), 0) }
}

/// The reading and the phases, on a table that is fit.
pub fn phases(call: &mut Call) {
    let [ports, speedup, _] = *call.numbers;
    assert!(ports <= 16 && call.matches.len() == (speedup * ports) as usize);
    assert!(call.table.len() <= 5 * 1024);
    // SAFETY: pointers and lengths are exclusive references'; the numbers go with the lists, and the ports of a
    // fit table are the switch's.
    unsafe {
        treikwater_stage_phases(
            call.table.as_mut_ptr(),
            call.table.len(),
            call.matches.as_mut_ptr(),
            call.matches.len(),
            ports,
            speedup,
        )
    }
}

pub fn exhale(call: &mut Call) {
    let ports = call.numbers[0];
    assert_eq!(call.exhaled.len(), 4 * ports as usize);
    // SAFETY: pointers and lengths are exclusive references'; four words for each port.
    unsafe {
        treikwater_stage_exhale(
            call.table.as_mut_ptr(),
            call.table.len(),
            call.exhaled.as_mut_ptr(),
            call.exhaled.len(),
            ports,
        )
    }
}
