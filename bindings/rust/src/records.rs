//! The table's words seen as records, and records seen as words: the same bytes, nothing copied.

use std::slice;

use crate::table::RECORD_WORDS;

/// A record of the table: five of its words, by name. The default is a free one.
#[repr(C)]
#[derive(Clone, Copy, PartialEq, Eq, Debug, Default)]
pub struct Record {
    /// 0 for free, 1 for waiting, 2 for ready.
    pub place: u32,
    pub input: u32,
    pub output: u32,
    pub entered: u32,
    pub tag: u32,
}

const _: () = assert!(size_of::<Record>() == RECORD_WORDS * size_of::<u32>());
const _: () = assert!(align_of::<Record>() == align_of::<u32>());

/// The words of these records.
///
/// ```
/// use treikwater::records::{words_of, Record};
/// let ready = Record { place: 2, input: 1, output: 0, entered: 4, tag: 77 };
/// assert_eq!(words_of(&[Record::default(), ready]), [0, 0, 0, 0, 0, 2, 1, 0, 4, 77]);
/// ```
pub fn words_of(records: &[Record]) -> &[u32] {
    let length = records.len() * RECORD_WORDS;
    // SAFETY: a record is five words and nothing else, aligned as they are; the borrow is the same.
    unsafe { slice::from_raw_parts(records.as_ptr().cast::<u32>(), length) }
}

/// The words of these records, to be lent to a call as its table.
///
/// ```
/// use treikwater::records::{words_of_mut, Record};
/// use treikwater::words;
/// let mut numbers = [1, 3, 7];
/// let mut table = [Record { place: 2, input: 0, output: 0, entered: 4, tag: 77 }, Record::default()];
/// let (mut matches, mut exhaled) = ([9; 3], [9; 4]);
/// let lent = words_of_mut(&mut table);
/// assert_eq!(words::slot(&mut numbers, lent, &[1, 40], &mut matches, &mut exhaled), 0);
/// let ready = Record { place: 2, input: 0, output: 0, entered: 7, tag: 40 };
/// assert_eq!((exhaled, table), ([1, 0, 4, 77], [Record::default(), ready]));
/// ```
pub fn words_of_mut(records: &mut [Record]) -> &mut [u32] {
    let length = records.len() * RECORD_WORDS;
    // SAFETY: as in `words_of`, and any words are records; the borrow is as exclusive.
    unsafe { slice::from_raw_parts_mut(records.as_mut_ptr().cast::<u32>(), length) }
}

/// The records of these words; none where the words are no whole records.
///
/// ```
/// use treikwater::records::{records_of, Record};
/// let words = [2, 1, 0, 4, 77];
/// let ready = Record { place: 2, input: 1, output: 0, entered: 4, tag: 77 };
/// assert_eq!(records_of(&words), Some([ready].as_slice()));
/// assert_eq!(records_of(&words[..4]), None);
/// ```
pub fn records_of(words: &[u32]) -> Option<&[Record]> {
    let length = whole_records(words)?;
    // SAFETY: a record is five words and nothing else, aligned as they are, and any words will do;
    // so many records are all the words, and the borrow is the same.
    Some(unsafe { slice::from_raw_parts(words.as_ptr().cast::<Record>(), length) })
}

/// The records of these words, to be written; none where the words are no whole records.
///
/// ```
/// use treikwater::records::records_of_mut;
/// let mut words = [2, 1, 0, 4, 77];
/// let records = records_of_mut(&mut words).expect("one whole record");
/// records[0].tag = 78;
/// assert_eq!(words, [2, 1, 0, 4, 78]);
/// ```
pub fn records_of_mut(words: &mut [u32]) -> Option<&mut [Record]> {
    let length = whole_records(words)?;
    // SAFETY: as in `records_of`, and any records are words; the borrow is as exclusive.
    Some(unsafe { slice::from_raw_parts_mut(words.as_mut_ptr().cast::<Record>(), length) })
}

fn whole_records(words: &[u32]) -> Option<usize> {
    let whole = words.len().is_multiple_of(RECORD_WORDS);
    whole.then_some(words.len() / RECORD_WORDS)
}
