//! The one number that a call answers (document 01, Rows and buffers; Refused,
//! by the place of the check).

use crate::sizes::REFUSAL_FACTOR;

/// Why a call is refused, in the order in which the places are tried.
#[derive(Clone, Copy, Debug, PartialEq, Eq)]
pub enum Refusal {
    Length,
    TableA {
        row: usize,
    },
    TableB {
        row: usize,
    },
    /// The list differs from the finished one, and something stands from there.
    ListStray {
        row: usize,
    },
    /// The list is a proper leading part of the finished one.
    ListUnfinished {
        row: usize,
    },
    Kind,
    Master,
    Field,
    /// An arrival of a number that is there, or any other use of one that is not.
    Presence,
    Full,
}

impl Refusal {
    pub fn number(self) -> u32 {
        match self {
            Refusal::Length => 1,
            Refusal::TableA { .. } => 2,
            Refusal::TableB { .. } => 3,
            Refusal::ListStray { .. } => 4,
            Refusal::ListUnfinished { .. } => 5,
            Refusal::Kind => 6,
            Refusal::Master => 7,
            Refusal::Field => 8,
            Refusal::Presence => 9,
            Refusal::Full => 10,
        }
    }

    pub fn value(self) -> u32 {
        match self {
            Refusal::TableA { row }
            | Refusal::TableB { row }
            | Refusal::ListStray { row }
            | Refusal::ListUnfinished { row } => row as u32,
            _ => 0,
        }
    }
}

/// The answer of a done call with this value, or of a refused one.
pub fn answer(outcome: Result<u64, Refusal>) -> u32 {
    match outcome {
        Ok(value) => value as u32,
        Err(refusal) => answer_of(refusal.number(), refusal.value()),
    }
}

pub fn answer_of(number: u32, value: u32) -> u32 {
    number * REFUSAL_FACTOR + value
}

pub fn number_of(answer: u32) -> u32 {
    answer / REFUSAL_FACTOR
}

pub fn value_of(answer: u32) -> u32 {
    answer % REFUSAL_FACTOR
}
