//! What tests print: bytes in hex, and a table of calls by refusal number.

use std::collections::BTreeMap;
use std::fmt::{Display, Formatter, Result};

/// The bytes in hex; the zeros at the end only counted.
pub fn hex(bytes: &[u8]) -> String {
    let used = bytes
        .iter()
        .rposition(|byte| *byte != 0)
        .map_or(0, |last| last + 1);
    let mut text: String = bytes[..used]
        .iter()
        .map(|byte| format!("{byte:02x}"))
        .collect();
    if used < bytes.len() {
        text.push_str(&format!("(+{} zero bytes)", bytes.len() - used));
    }
    text
}

/// For each call, the refusal numbers that document 01 lets it answer; 0 is done.
pub const POSSIBLE: [(&str, &[u32]); 5] = [
    ("Pair", &[0, 1, 2, 3]),
    ("Step", &[0, 1, 2, 3, 4]),
    ("Edit", &[0, 1, 2, 3, 4, 5, 6, 7, 8, 9, 10]),
    ("Spare", &[0, 1, 2, 3, 4, 5, 7, 8, 9]),
    ("Bands", &[0, 1, 2, 3, 4, 5]),
];

/// How often each call answered each refusal number.
#[derive(Clone, Debug, Default, PartialEq, Eq)]
pub struct Tally {
    cells: BTreeMap<(&'static str, u32), u64>,
}

impl Tally {
    pub fn count(&mut self, call: &'static str, number: u32) {
        *self.cells.entry((call, number)).or_default() += 1;
    }

    pub fn add(&mut self, other: &Tally) {
        for (cell, times) in &other.cells {
            *self.cells.entry(*cell).or_default() += times;
        }
    }

    pub fn times(&self, call: &'static str, number: u32) -> u64 {
        self.cells.get(&(call, number)).copied().unwrap_or(0)
    }

    pub fn calls(&self) -> u64 {
        self.cells.values().sum()
    }

    pub fn done(&self) -> u64 {
        self.cells
            .iter()
            .filter(|((_, number), _)| *number == 0)
            .map(|(_, times)| times)
            .sum()
    }

    /// Cells that document 01 allows and that were never met.
    pub fn never_met(&self) -> Vec<(&'static str, u32)> {
        let possible = POSSIBLE
            .iter()
            .flat_map(|(call, numbers)| numbers.iter().map(|number| (*call, *number)));
        possible
            .filter(|(call, number)| self.times(call, *number) == 0)
            .collect()
    }

    /// Cells that were met and that document 01 does not allow.
    pub fn not_allowed(&self) -> Vec<(&'static str, u32)> {
        let allowed = |cell: &(&'static str, u32)| {
            POSSIBLE
                .iter()
                .any(|(call, numbers)| *call == cell.0 && numbers.contains(&cell.1))
        };
        self.cells
            .keys()
            .copied()
            .filter(|cell| !allowed(cell))
            .collect()
    }
}

impl Display for Tally {
    fn fmt(&self, out: &mut Formatter<'_>) -> Result {
        write!(out, "{:>6}{:>8}", "", "done")?;
        for number in 1..=10 {
            write!(out, "{number:>8}")?;
        }
        for (call, _) in POSSIBLE {
            write!(out, "\n{call:>6}")?;
            for number in 0..=10 {
                write!(out, "{:>8}", self.times(call, number))?;
            }
        }
        Ok(())
    }
}
