//! What was run: calls by refusal number and by the size of the drawing.

use std::collections::BTreeMap;
use std::fmt::{Display, Formatter, Result};

use model::engine::Request;
use model::generate::edits::KINDS;
use model::report::POSSIBLE;
use model::rows::Edit;
use model::sizes::{EDIT_BYTES, TABLE_ROWS};

/// Every cell that can be met is met so many times.
pub const LEAST: u64 = 100;

/// Sizes of drawings, by the nodes of the master with fewer and of the one with more.
#[derive(Clone, Copy, Debug, PartialEq, Eq, PartialOrd, Ord)]
pub enum Class {
    Empty,
    To4,
    To16,
    To64,
    FewByMany,
    Other,
    Full,
}

pub const CLASSES: [(Class, &str); 7] = [
    (Class::Empty, "a master empty"),
    (Class::To4, "to 4"),
    (Class::To16, "to 16"),
    (Class::To64, "to 64"),
    (Class::FewByMany, "few by 510 to 512"),
    (Class::Other, "other"),
    (Class::Full, "512 x 512"),
];

pub fn class((a, b): (usize, usize)) -> Class {
    match (a.min(b), a.max(b)) {
        (0, _) => Class::Empty,
        (_, ..=4) => Class::To4,
        (_, ..=16) => Class::To16,
        (_, ..=64) => Class::To64,
        (..=7, 510..) => Class::FewByMany,
        (TABLE_ROWS, _) => Class::Full,
        _ => Class::Other,
    }
}

/// Whether a call that gives this number at all can give it on a drawing of this class.
pub fn possible(number: u32, class: Class) -> bool {
    match number {
        // Only a list that should hold a link can be unfinished.
        5 => class != Class::Empty,
        // Only a full master takes no arrival.
        10 => !matches!(class, Class::To4 | Class::To16 | Class::To64),
        _ => true,
    }
}

type Cell = (&'static str, u32, Class);

#[derive(Default)]
pub struct Tally {
    cells: BTreeMap<Cell, u64>,
    /// Done edits by kind, on drawings that are full on both sides before or after.
    full_edits: BTreeMap<u64, u64>,
    /// Done edits that gave a node another sort, by the size of the drawing.
    other_sorts: BTreeMap<Class, u64>,
}

impl Tally {
    pub fn count(&mut self, request: &Request, number: u32, nodes: (usize, usize)) {
        let class = class(nodes);
        let cell = (request.name(), number, class);
        *self.cells.entry(cell).or_default() += 1;
        match request {
            Request::Edit { edit } if number == 0 && class == Class::Full => {
                debug_assert_eq!(edit.len(), EDIT_BYTES);
                *self.full_edits.entry(Edit::read(edit).kind).or_default() += 1;
            }
            _ => {}
        }
    }

    pub fn count_other_sort(&mut self, nodes: (usize, usize)) {
        *self.other_sorts.entry(class(nodes)).or_default() += 1;
    }

    pub fn add(&mut self, other: &Tally) {
        for (cell, times) in &other.cells {
            *self.cells.entry(*cell).or_default() += times;
        }
        for (kind, times) in &other.full_edits {
            *self.full_edits.entry(*kind).or_default() += times;
        }
        for (class, times) in &other.other_sorts {
            *self.other_sorts.entry(*class).or_default() += times;
        }
    }

    fn times(&self, wanted: impl Fn(&Cell) -> bool) -> u64 {
        let cells = self.cells.iter().filter(|(cell, _)| wanted(cell));
        cells.map(|(_, times)| times).sum()
    }

    pub fn calls(&self) -> u64 {
        self.times(|_| true)
    }

    pub fn done(&self) -> u64 {
        self.times(|cell| cell.1 == 0)
    }

    /// The possible cells that were met less often than they must be.
    pub fn rare(&self) -> Vec<(Cell, u64)> {
        let mut rare = Vec::new();
        for (call, numbers) in POSSIBLE {
            for number in numbers {
                for (class, _) in CLASSES {
                    let cell = (call, *number, class);
                    let times = self.times(|other| *other == cell);
                    if times < LEAST && possible(*number, class) {
                        rare.push((cell, times));
                    }
                }
            }
        }
        rare
    }

    /// The sizes at which no node got another sort.
    pub fn sorts_kept(&self) -> Vec<Class> {
        let mut classes = CLASSES.map(|(class, _)| class).to_vec();
        classes.retain(|class| !self.other_sorts.contains_key(class));
        classes
    }

    /// The kinds of which no edit was done at full size.
    pub fn kinds_missed(&self) -> Vec<u64> {
        let met = |kind: &u64| self.full_edits.contains_key(kind);
        KINDS.into_iter().filter(|kind| !met(kind)).collect()
    }
}

/// A table of call by refusal number for each class, and done edits by kind at full size.
impl Display for Tally {
    fn fmt(&self, out: &mut Formatter<'_>) -> Result {
        for (class, name) in CLASSES {
            write!(out, "{name:<18}{:>8}", "done")?;
            for number in 1..=10 {
                write!(out, "{number:>7}")?;
            }
            for (call, _) in POSSIBLE {
                write!(out, "\n{call:>18} ")?;
                for number in 0..=10 {
                    let times = self.times(|cell| *cell == (call, number, class));
                    write!(out, "{times:>7}")?;
                }
            }
            writeln!(out)?;
        }
        let kinds = KINDS.map(|kind| self.full_edits.get(&kind).copied().unwrap_or(0));
        let (calls, done) = (self.calls(), self.done());
        writeln!(out, "done edits at 512 x 512, by kind: {kinds:?}")?;
        let other_sorts = &self.other_sorts;
        writeln!(out, "nodes that got another sort, by size: {other_sorts:?}")?;
        write!(out, "calls: {calls}, of these done: {done}")
    }
}
