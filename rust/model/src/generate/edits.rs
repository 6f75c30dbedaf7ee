//! Edits for a drawing: such as will be done, and such as will be refused for
//! one bad thing in them.

pub use super::fields::{bad_capacity, bad_position, bad_sort, unknown_number};
use super::fields::{destination, newcomer, some_capacity, some_sort};
use super::random::Random;
use super::sorts::BOTH_SORTS;
use crate::answer::Refusal;
use crate::rows::{Edit, Node};
use crate::sizes::*;

pub const KINDS: [u64; 4] = [KIND_ARRIVAL, KIND_DEPARTURE, KIND_MOVE, KIND_CAPACITY];

/// The one bad thing in an edit.
#[derive(Clone, Copy, Debug, PartialEq, Eq, PartialOrd, Ord)]
pub enum BadEdit {
    Kind,
    Master,
    NumberZero,
    /// A field that must be zero is not.
    NotZero,
    /// A field that is used is out of range.
    OutOfRange,
    /// A sort that no node has, in an arrival or a new capacity.
    Sort,
    /// A sort in a departure or a move, and all else as it must be.
    SortNotZero,
    /// An arrival of a known number, or any other edit of an unknown one.
    Presence,
    /// An arrival into a full master.
    Full,
}

pub const BAD_EDITS: [BadEdit; 9] = [
    BadEdit::Kind,
    BadEdit::Master,
    BadEdit::NumberZero,
    BadEdit::NotZero,
    BadEdit::OutOfRange,
    BadEdit::Sort,
    BadEdit::SortNotZero,
    BadEdit::Presence,
    BadEdit::Full,
];

impl BadEdit {
    /// What such an edit is refused with, if all before it passes.
    pub fn refusal(self) -> Refusal {
        match self {
            BadEdit::Kind => Refusal::Kind,
            BadEdit::Master => Refusal::Master,
            BadEdit::NumberZero
            | BadEdit::NotZero
            | BadEdit::OutOfRange
            | BadEdit::Sort
            | BadEdit::SortNotZero => Refusal::Field,
            BadEdit::Presence => Refusal::Presence,
            BadEdit::Full => Refusal::Full,
        }
    }
}

/// An edit of this kind that will be done; none if no master allows one.
pub fn good_edit(random: &mut Random, kind: u64, a: &[Node], b: &[Node]) -> Option<Edit> {
    let masters = [(MASTER_A, a), (MASTER_B, b)];
    let possible: Vec<(u64, &[Node])> = masters
        .into_iter()
        .filter(|(_, nodes)| match kind {
            KIND_ARRIVAL => nodes.len() < TABLE_ROWS,
            _ => !nodes.is_empty(),
        })
        .collect();
    if possible.is_empty() {
        return None;
    }
    let (master, nodes) = random.pick(&possible);
    if kind == KIND_ARRIVAL {
        return Some(Edit::arrival(master, newcomer(random, nodes, a, b)));
    }
    let node = random.pick(nodes);
    Some(match kind {
        KIND_DEPARTURE => Edit::departure(master, node.number),
        KIND_MOVE => {
            // Now and then to where it stands, as in E9.
            let (horizontal, vertical) = match random.once_in(8) {
                true => (node.horizontal, node.vertical),
                false => destination(random, a, b),
            };
            Edit::moved(master, node.number, horizontal, vertical)
        }
        _ => {
            // Half of them change the sort, some of these nothing else.
            let sort = random.pick(&BOTH_SORTS);
            let capacity = match random.once_in(4) {
                true => node.capacity,
                false => some_capacity(random),
            };
            Edit::new_capacity(master, node.number, capacity).with_sort(sort)
        }
    })
}

/// An edit with this bad thing, and nothing else bad; none if the drawing
/// allows no such edit.
pub fn bad_edit(random: &mut Random, bad: BadEdit, a: &[Node], b: &[Node]) -> Option<Edit> {
    let any_kind = random.pick(&KINDS);
    match bad {
        BadEdit::Kind => {
            let edit = good_edit(random, any_kind, a, b)?;
            let kinds = [0, KIND_CAPACITY + 1, EDIT_KIND.greatest()];
            Some(Edit {
                kind: random.pick(&kinds),
                ..edit
            })
        }
        BadEdit::Master => {
            let edit = good_edit(random, any_kind, a, b)?;
            let masters = [MASTER_B + 1, EDIT_MASTER.greatest()];
            Some(Edit {
                master: random.pick(&masters),
                ..edit
            })
        }
        BadEdit::NumberZero => {
            let edit = good_edit(random, any_kind, a, b)?;
            Some(Edit { number: 0, ..edit })
        }
        BadEdit::NotZero => {
            let kind = random.pick(&[KIND_DEPARTURE, KIND_MOVE, KIND_CAPACITY]);
            let edit = good_edit(random, kind, a, b)?;
            Some(not_zero(random, edit))
        }
        BadEdit::OutOfRange => {
            let kind = random.pick(&[KIND_ARRIVAL, KIND_MOVE, KIND_CAPACITY]);
            let edit = good_edit(random, kind, a, b)?;
            Some(out_of_range(random, edit))
        }
        BadEdit::Sort => {
            let kind = random.pick(&[KIND_ARRIVAL, KIND_CAPACITY]);
            let edit = good_edit(random, kind, a, b)?;
            Some(edit.with_sort(bad_sort(random)))
        }
        BadEdit::SortNotZero => {
            let kind = random.pick(&[KIND_DEPARTURE, KIND_MOVE]);
            let edit = good_edit(random, kind, a, b)?;
            let bad = bad_sort(random);
            let sort = random.pick(&[SORT_OFF_CURVE, bad]);
            Some(edit.with_sort(sort))
        }
        BadEdit::Presence => bad_presence(random, a, b),
        BadEdit::Full => {
            let masters = [(MASTER_A, a), (MASTER_B, b)];
            let full = masters
                .into_iter()
                .filter(|(_, nodes)| nodes.len() == TABLE_ROWS);
            let full: Vec<(u64, &[Node])> = full.collect();
            if full.is_empty() {
                return None;
            }
            let (master, nodes) = random.pick(&full);
            Some(Edit::arrival(master, newcomer(random, nodes, a, b)))
        }
    }
}

fn not_zero(random: &mut Random, edit: Edit) -> Edit {
    let position = random.pick(&[1, -1, POSITION_MAX, EDIT_HORIZONTAL.least_signed()]);
    let capacity = random.pick(&[CAPACITY_MIN, CAPACITY_MAX, EDIT_CAPACITY.greatest()]);
    let bad_horizontal = Edit {
        horizontal: position,
        ..edit
    };
    let bad_vertical = Edit {
        vertical: position,
        ..edit
    };
    // With either sort: a good capacity field is no better here than a bad one.
    let bad_capacity = Edit { capacity, ..edit }.with_sort(random.pick(&BOTH_SORTS));
    match edit.kind {
        KIND_DEPARTURE => random.pick(&[bad_horizontal, bad_vertical, bad_capacity]),
        KIND_MOVE => bad_capacity,
        _ => random.pick(&[bad_horizontal, bad_vertical]),
    }
}

fn out_of_range(random: &mut Random, edit: Edit) -> Edit {
    let position = bad_position(random);
    let bad_horizontal = Edit {
        horizontal: position,
        ..edit
    };
    let bad_vertical = Edit {
        vertical: position,
        ..edit
    };
    let bad_capacity = Edit {
        capacity: bad_capacity(random),
        sort: random.pick(&BOTH_SORTS),
        ..edit
    };
    match edit.kind {
        KIND_ARRIVAL => random.pick(&[bad_horizontal, bad_vertical, bad_capacity]),
        KIND_MOVE => random.pick(&[bad_horizontal, bad_vertical]),
        _ => bad_capacity,
    }
}

fn bad_presence(random: &mut Random, a: &[Node], b: &[Node]) -> Option<Edit> {
    let master = random.pick(&[MASTER_A, MASTER_B]);
    let nodes = if master == MASTER_A { a } else { b };
    let (horizontal, vertical) = destination(random, a, b);
    let unknown = unknown_number(random, nodes);
    match random.pick(&KINDS) {
        KIND_ARRIVAL if nodes.is_empty() => None,
        KIND_ARRIVAL => {
            let number = random.pick(nodes).number;
            Some(Edit::arrival(
                master,
                Node {
                    number,
                    ..newcomer(random, nodes, a, b)
                },
            ))
        }
        KIND_DEPARTURE => Some(Edit::departure(master, unknown)),
        KIND_MOVE => Some(Edit::moved(master, unknown, horizontal, vertical)),
        _ => {
            let edit = Edit::new_capacity(master, unknown, some_capacity(random));
            Some(edit.with_sort(some_sort(random, a, b)))
        }
    }
}
