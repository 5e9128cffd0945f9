//! Why a call was refused.

use std::error::Error;
use std::fmt;

/// The numbers given back, but for 0. A refused call changes nothing.
#[derive(Clone, Copy, PartialEq, Eq, Debug)]
pub enum Refusal {
    BadPorts = 1,
    BadSpeedup = 2,
    BadRecords = 3,
    Unfit = 4,
    BadLists = 5,
    NoSuchOutput = 6,
    ClockSpent = 7,
    NoRoom = 8,
}

impl Refusal {
    const ALL: [Refusal; 8] = [
        Refusal::BadPorts,
        Refusal::BadSpeedup,
        Refusal::BadRecords,
        Refusal::Unfit,
        Refusal::BadLists,
        Refusal::NoSuchOutput,
        Refusal::ClockSpent,
        Refusal::NoRoom,
    ];

    /// Document 01's number.
    ///
    /// ```
    /// assert_eq!(treikwater::Refusal::NoRoom.number(), 8);
    /// ```
    pub fn number(self) -> u32 {
        self as u32
    }

    /// The refusal with this number, if there is one.
    ///
    /// ```
    /// use treikwater::Refusal;
    /// assert_eq!(Refusal::from_number(4), Some(Refusal::Unfit));
    /// assert_eq!(Refusal::from_number(0), None);
    /// ```
    pub fn from_number(number: u32) -> Option<Refusal> {
        Refusal::ALL
            .into_iter()
            .find(|refusal| refusal.number() == number)
    }
}

impl fmt::Display for Refusal {
    fn fmt(&self, f: &mut fmt::Formatter<'_>) -> fmt::Result {
        f.write_str(match self {
            Refusal::BadPorts => "the ports are 0 or above 16",
            Refusal::BadSpeedup => "the speedup is 0 or above 8",
            Refusal::BadRecords => "the table has 0 or more than 1,024 records",
            Refusal::Unfit => "the table is not fit",
            Refusal::BadLists => "there is not one arrival for each input",
            Refusal::NoSuchOutput => "a cell arrives for an output that the switch has not",
            Refusal::ClockSpent => "the last slot has been reached",
            Refusal::NoRoom => "the arriving cells have no room",
        })
    }
}

impl Error for Refusal {}
