//! Every value of the capacity field, the capacity in its low byte and the sort in its high one: in a row of each table,
//! and in an edit of each kind.

mod beside;

use beside::Held;
use differential::Archive;
use model::answer::{answer_of, Refusal};
use model::buffers::{table_of, table_row_mut};
use model::engine::Engine;
use model::generate::edits::KINDS;
use model::rows::{capacity_in_range, sort_in_range, Edit, Node};
use model::sizes::*;

/// Low and high byte.
fn each_field(mut test: impl FnMut(u64, u64)) {
    for sort in 0..=NODE_SORT.greatest() {
        for capacity in 0..=NODE_CAPACITY.greatest() {
            test(capacity, sort);
        }
    }
}

fn is_good(capacity: u64, sort: u64) -> bool {
    capacity_in_range(capacity) && sort_in_range(sort)
}

#[test]
fn in_tables() {
    let sound = table_of(&[Node::new(1, 0, 0, 1), Node::off_curve(2, 3, 4, 64)]);
    let mut accepted = 0;
    each_field(|capacity, sort| {
        let mut table = sound.clone();
        let row = table_row_mut(&mut table, 1);
        NODE_CAPACITY.write(row, capacity);
        NODE_SORT.write(row, sort);
        let lends = [
            (&table, &sound, Refusal::TableA { row: 1 }),
            (&sound, &table, Refusal::TableB { row: 1 }),
        ];
        for (a, b, refusal) in lends {
            let mut list = vec![0xa5; LIST_BYTES];
            let answer = Archive.pair(a, b, &mut list);
            let good = is_good(capacity, sort);
            // The first rows are on-curve and pair; the second ones where both are off-curve.
            let right = match good {
                true => 1 + u32::from(sort == SORT_OFF_CURVE),
                false => answer_of(refusal.number(), refusal.value()),
            };
            let what = format!("capacity {capacity}, sort {sort}, {refusal:?}");
            assert_eq!(answer, right, "{what}");
            assert_eq!(list.iter().all(|byte| *byte == 0xa5), !good, "{what}");
            accepted += u32::from(good);
        }
    });
    assert_eq!(accepted, 2 * 2 * 64);
}

#[test]
fn in_edits() {
    let a = [Node::new(1, 0, 0, 1), Node::off_curve(2, 5, 0, 2)];
    let b = [Node::new(1, 1, 0, 2), Node::off_curve(2, 0, 0, 1)];
    let before = Held::new("in edits", &a, &b);
    let mut done = 0;
    for kind in KINDS {
        let edit = match kind {
            KIND_ARRIVAL => Edit::arrival(MASTER_B, Node::new(3, 2, 0, 1)),
            KIND_DEPARTURE => Edit::departure(MASTER_A, 1),
            KIND_MOVE => Edit::moved(MASTER_B, 2, 9, 9),
            _ => Edit::new_capacity(MASTER_A, 2, 1),
        };
        let has_field = [KIND_ARRIVAL, KIND_CAPACITY].contains(&kind);
        each_field(|capacity, sort| {
            let edit = Edit {
                capacity,
                sort,
                ..edit
            };
            let good = match has_field {
                true => is_good(capacity, sort),
                false => (capacity, sort) == (0, 0),
            };
            if good {
                before.edited("in edits", &edit);
                done += 1;
                return;
            }
            let mut left = before.clone();
            let answer = Archive.edit(&mut left.a, &mut left.b, &mut left.list, &edit.bytes());
            assert_eq!(answer, answer_of(Refusal::Field.number(), 0), "{edit:?}");
            assert!(left == before, "{edit:?}");
        });
    }
    assert_eq!(done, 2 * 2 * 64 + 2);
}
