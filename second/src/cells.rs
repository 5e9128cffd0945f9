//! What a cell is. Inputs, outputs and slots are three kinds of number that never mix, and a cell
//! is known by its slot of entry and its input alone.

use std::collections::BTreeMap;

#[derive(Clone, Copy, PartialEq, Eq, PartialOrd, Ord, Debug)]
pub struct Input(pub u32);

#[derive(Clone, Copy, PartialEq, Eq, PartialOrd, Ord, Debug)]
pub struct Output(pub u32);

#[derive(Clone, Copy, PartialEq, Eq, PartialOrd, Ord, Debug)]
pub struct Slot(pub u32);

/// Which cell it is. The order is the order of age: by slot, then by input.
#[derive(Clone, Copy, PartialEq, Eq, PartialOrd, Ord, Debug)]
pub struct Identity {
    pub entered: Slot,
    pub input: Input,
}

/// What goes with a cell. The record number is carried for the edge; no rule looks at it.
#[derive(Clone, Copy, PartialEq, Eq, Debug)]
pub struct Content {
    pub output: Output,
    pub tag: u32,
    pub record: usize,
}

/// A set of cells, in the order of age.
pub type Cells = BTreeMap<Identity, Content>;
