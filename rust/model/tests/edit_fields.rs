//! The fields of an edit, and the arguments of Spare, at all their bounds
//! (document 01, Rows and buffers; Refused, by the place of the check).

use model::answer::number_of;
use model::buffers::{list_of, table_of};
use model::engine::{Call, Engine, Model, Request};
use model::join::join_by_search;
use model::rows::{Edit, Node};
use model::sizes::*;

/// The refusal number of a call on a drawing of A 1, A 2 and B 1.
fn number_of_request(request: Request) -> u32 {
    let a = [Node::new(1, 0, 0, 2), Node::new(2, 9, 9, 1)];
    let b = [Node::new(1, 4, 0, 1)];
    let list = list_of(&join_by_search(&a, &b));
    let call = Call::whole(request);
    let ran = Model.run(&call, &table_of(&a), &table_of(&b), &list);
    let number = number_of(ran.answer);
    if number != 0 {
        let request = &call.request;
        assert!(ran.before == ran.after, "a byte changed by {request:?}");
    }
    number
}

fn number_of_edit(edit: Edit) -> u32 {
    number_of_request(Request::Edit {
        edit: edit.bytes().to_vec(),
    })
}

#[test]
fn fields_of_an_edit_at_every_bound() {
    let least = EDIT_HORIZONTAL.least_signed();
    let greatest = EDIT_HORIZONTAL.greatest_signed();
    // Each with whether it is in range.
    let positions = [
        (least, false),
        (POSITION_MIN - 1, false),
        (POSITION_MIN, true),
        (-1, true),
        (0, true),
        (1, true),
        (POSITION_MAX, true),
        (POSITION_MAX + 1, false),
        (greatest, false),
    ];
    let capacities = [
        (0, false),
        (CAPACITY_MIN, true),
        (CAPACITY_MAX, true),
        (CAPACITY_MAX + 1, false),
        (EDIT_CAPACITY.greatest(), false),
    ];
    let sorts = [
        (SORT_ON_CURVE, true),
        (SORT_OFF_CURVE, true),
        (SORT_MAX + 1, false),
        (EDIT_SORT.greatest(), false),
    ];
    let all = capacities.map(|capacity| sorts.map(|sort| (capacity, sort)));
    for (horizontal, horizontal_good) in positions {
        for (vertical, vertical_good) in positions {
            for ((capacity, capacity_good), (sort, sort_good)) in all.into_iter().flatten() {
                let capacity_good = capacity_good && sort_good;
                let capacity_zero = capacity == 0 && sort == 0;
                let place_good = horizontal_good && vertical_good;
                let place_zero = horizontal == 0 && vertical == 0;
                let expected = [
                    (KIND_ARRIVAL, 3, place_good && capacity_good),
                    (KIND_DEPARTURE, 1, place_zero && capacity_zero),
                    (KIND_MOVE, 1, place_good && capacity_zero),
                    (KIND_CAPACITY, 1, place_zero && capacity_good),
                ];
                for (kind, number, good) in expected {
                    let edit = Edit {
                        kind,
                        master: MASTER_A,
                        number,
                        horizontal,
                        vertical,
                        capacity,
                        sort,
                    };
                    let expected = if good { 0 } else { 8 };
                    assert_eq!(number_of_edit(edit), expected, "{edit:?}");
                }
            }
        }
    }
}

#[test]
fn every_kind_and_every_master() {
    let departure = Edit::departure(MASTER_A, 1);
    for byte in 0..=EDIT_KIND.greatest() {
        let number = number_of_edit(Edit {
            kind: byte,
            ..departure
        });
        // All fields zero: right for a departure, and for a move to the origin.
        let expected = match byte {
            KIND_DEPARTURE | KIND_MOVE => 0,
            KIND_ARRIVAL | KIND_CAPACITY => 8,
            _ => 6,
        };
        assert_eq!(number, expected, "kind {byte}");
    }
    for byte in 0..=EDIT_MASTER.greatest() {
        let known = byte == MASTER_A || byte == MASTER_B;
        let expected = if known { 0 } else { 7 };
        let edit = Edit {
            master: byte,
            ..departure
        };
        assert_eq!(number_of_edit(edit), expected, "master {byte}");
        let request = Request::Spare {
            master: byte as MasterArgument,
            number: 1,
        };
        assert_eq!(number_of_request(request), expected, "master {byte}");
    }
}

#[test]
fn presence_is_judged_in_its_own_master() {
    // Node 2 is in A and not in B.
    let in_b = |edit: Edit| {
        number_of_edit(Edit {
            master: MASTER_B,
            ..edit
        })
    };
    assert_eq!(number_of_edit(Edit::departure(MASTER_A, 2)), 0);
    assert_eq!(in_b(Edit::departure(MASTER_A, 2)), 9);
    assert_eq!(in_b(Edit::moved(MASTER_A, 2, 0, 0)), 9);
    assert_eq!(in_b(Edit::new_capacity(MASTER_A, 2, 1)), 9);
    let arrival = Edit::arrival(MASTER_A, Node::new(2, 0, 0, 1));
    assert_eq!(number_of_edit(arrival), 9);
    assert_eq!(in_b(arrival), 0);
}

#[test]
fn numbers_of_spare() {
    let spare = |master: u64, number: u64| {
        number_of_request(Request::Spare {
            master: master as MasterArgument,
            number: number as NumberArgument,
        })
    };
    assert_eq!(spare(MASTER_A, 1), 0);
    assert_eq!(spare(MASTER_A, 2), 0);
    assert_eq!(spare(MASTER_B, 1), 0);
    assert_eq!(spare(MASTER_B, 2), 9);
    assert_eq!(spare(MASTER_A, 0), 8);
    assert_eq!(spare(MASTER_A, NUMBER_MAX), 9);
    // The two bytes of 1, exchanged.
    assert_eq!(spare(MASTER_A, 1 << BITS_PER_BYTE), 9);
}
