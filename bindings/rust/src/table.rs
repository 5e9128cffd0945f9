//! The cell table: a list of records, lent to each call.

pub(crate) const RECORD_WORDS: usize = 5;

/// Where a live cell stands.
#[derive(Clone, Copy, PartialEq, Eq, Debug)]
pub enum Unit {
    /// Waiting, in its input unit.
    Input,
    /// Ready, in its output unit.
    Output,
}

/// A cell in the table.
#[derive(Clone, Copy, PartialEq, Eq, Debug)]
pub struct Cell {
    pub unit: Unit,
    pub input: u32,
    pub output: u32,
    pub entered: u32,
    pub tag: u32,
}

/// Flat words, five a record: place, input, output, slot of entry, tag.
///
/// ```
/// use treikwater::{Cell, Table, Unit};
/// let table = Table::from_words(vec![0, 0, 0, 0, 0, 2, 1, 0, 4, 77]);
/// let cell = Cell { unit: Unit::Output, input: 1, output: 0, entered: 4, tag: 77 };
/// assert_eq!(table.records(), 2);
/// assert_eq!((table.cell(0), table.cell(1)), (None, Some(cell)));
/// assert_eq!(table.cells().collect::<Vec<_>>(), [cell]);
/// ```
#[derive(Clone, PartialEq, Eq, Debug)]
pub struct Table {
    words: Vec<u32>,
}

impl Table {
    /// So many free records.
    pub fn free(records: usize) -> Table {
        Table {
            words: vec![0; records * RECORD_WORDS],
        }
    }

    /// Any words; whether they are a fit table, each slot tells.
    pub fn from_words(words: Vec<u32>) -> Table {
        Table { words }
    }

    pub fn words(&self) -> &[u32] {
        &self.words
    }

    pub(crate) fn words_mut(&mut self) -> &mut [u32] {
        &mut self.words
    }

    pub fn into_words(self) -> Vec<u32> {
        self.words
    }

    pub fn records(&self) -> usize {
        self.words.len() / RECORD_WORDS
    }

    /// The cell of a record. None for a free record, for one that is not there, and for one with a
    /// place that no fit table has.
    pub fn cell(&self, record: usize) -> Option<Cell> {
        self.words
            .chunks_exact(RECORD_WORDS)
            .nth(record)
            .and_then(cell_of)
    }

    /// The live cells, by rising record.
    pub fn cells(&self) -> impl Iterator<Item = Cell> + '_ {
        self.words.chunks_exact(RECORD_WORDS).filter_map(cell_of)
    }

    /// How many cells are live.
    pub fn live(&self) -> usize {
        self.cells().count()
    }
}

fn cell_of(words: &[u32]) -> Option<Cell> {
    let &[place, input, output, entered, tag] = words else {
        return None;
    };
    let unit = match place {
        1 => Unit::Input,
        2 => Unit::Output,
        _ => return None,
    };
    Some(Cell {
        unit,
        input,
        output,
        entered,
        tag,
    })
}
