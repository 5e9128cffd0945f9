//! The two calls as the library has them, on words alone. They take any words and any lengths; see
//! include/treikwater.h for the layouts. What the header asks of a caller, Rust's references give:
//! they are valid for their lengths and those that are written overlap nothing.

extern "C" {
    fn treikwater_fresh_start(
        numbers: *mut u32,
        numbers_length: usize,
        table: *mut u32,
        table_length: usize,
    ) -> u32;

    fn treikwater_slot(
        numbers: *mut u32,
        numbers_length: usize,
        table: *mut u32,
        table_length: usize,
        arrivals: *const u32,
        arrivals_length: usize,
        matches: *mut u32,
        matches_length: usize,
        exhaled: *mut u32,
        exhaled_length: usize,
    ) -> u32;
}

/// Given back where the list of numbers has not three words.
pub const NO_NUMBERS: u32 = 255;

/// A fresh start with the numbers `[N, S, t]`: 0, or 1, 2, 3 or 255 with nothing changed.
///
/// ```
/// use treikwater::words;
/// let mut numbers = [2, 3, 9];
/// let mut table = [7; 10];
/// assert_eq!(words::fresh_start(&mut numbers, &mut table), 0);
/// assert_eq!((numbers, table), ([2, 3, 0], [0; 10]));
/// assert_eq!(words::fresh_start(&mut numbers[..2], &mut table), words::NO_NUMBERS);
/// ```
pub fn fresh_start(numbers: &mut [u32], table: &mut [u32]) -> u32 {
    // SAFETY: each pointer and length is a reference's, and all are exclusive.
    unsafe {
        treikwater_fresh_start(
            numbers.as_mut_ptr(),
            numbers.len(),
            table.as_mut_ptr(),
            table.len(),
        )
    }
}

/// Slot t of the numbers `[N, S, t]`: 0, or a number from 1 to 8 or 255 with nothing changed.
///
/// ```
/// use treikwater::words;
/// let mut numbers = [1, 3, 7];
/// let mut table = [0; 5];
/// let (mut matches, mut exhaled) = ([9; 3], [9; 4]);
/// let number = words::slot(&mut numbers, &mut table, &[1, 40], &mut matches, &mut exhaled);
/// assert_eq!((number, numbers), (0, [1, 3, 8]));
/// assert_eq!((matches, exhaled, table), ([1, 0, 0], [1, 0, 7, 40], [0; 5]));
/// ```
pub fn slot(
    numbers: &mut [u32],
    table: &mut [u32],
    arrivals: &[u32],
    matches: &mut [u32],
    exhaled: &mut [u32],
) -> u32 {
    // SAFETY: each pointer and length is a reference's, and all but the arrivals' are exclusive.
    unsafe {
        treikwater_slot(
            numbers.as_mut_ptr(),
            numbers.len(),
            table.as_mut_ptr(),
            table.len(),
            arrivals.as_ptr(),
            arrivals.len(),
            matches.as_mut_ptr(),
            matches.len(),
            exhaled.as_mut_ptr(),
            exhaled.len(),
        )
    }
}
