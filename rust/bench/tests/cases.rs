//! The timed calls are what their names say.

use bench::calls::Caller;
use bench::cases::{Call, Case, CALLS, EDITS};
use bench::peer::Peer;
use bench::same::Same;
use bench::shapes::{Class, Count, Shape, SHAPES};
use model::answer::{number_of, value_of};
use model::buffers::{links_of, nodes_of};
use model::engine::Buffers;
use model::generate::drawing::{Capacities, Sorts, CAPACITIES};
use model::generate::random::Random;
use model::rows::Node;

const NODES: usize = 48;

/// Each case of a call: what was lent, the answer, what was left.
fn each(call: Call, check: impl Fn(&Buffers, u32, &Buffers)) {
    for shape in SHAPES {
        for capacities in CAPACITIES {
            let count = Count::Each(NODES);
            for sorts in shape.sorts() {
                let class = Class {
                    shape,
                    count,
                    capacities,
                    sorts,
                };
                for (seed, drawing) in (0..).zip(class.drawings()) {
                    let case = Case::new(&mut Random::new(seed), &drawing, call);
                    let mut left = case.lent.clone();
                    let answer = Peer::<Same>::default().run(&case.request, &mut left);
                    check(&case.lent, answer, &left);
                }
            }
        }
    }
}

fn nodes(lent: &Buffers) -> [Vec<Node>; 2] {
    [nodes_of(&lent.a), nodes_of(&lent.b)]
}

fn counts(lent: &Buffers) -> usize {
    nodes(lent).concat().len()
}

/// Nodes that differ between before and after, in row order.
fn changed(lent: &Buffers, left: &Buffers) -> Vec<(Node, Node)> {
    let both = nodes(lent).concat().into_iter().zip(nodes(left).concat());
    both.filter(|(before, after)| before != after).collect()
}

#[test]
fn all_but_one_are_done() {
    for call in CALLS {
        let number = if call == Call::Refused { 4 } else { 0 };
        each(call, |_, answer, _| {
            assert_eq!(number_of(answer), number, "{call:?}")
        });
    }
}

#[test]
fn edits_change_what_they_say() {
    each(Call::Arrival, |lent, _, left| {
        assert_eq!((counts(lent), counts(left)), (2 * NODES - 1, 2 * NODES));
    });
    each(Call::Departure, |lent, _, left| {
        assert_eq!((counts(lent), counts(left)), (2 * NODES, 2 * NODES - 1));
    });
    each(Call::Move, |lent, _, left| {
        for (before, after) in changed(lent, left) {
            assert!(before.horizontal.abs_diff(after.horizontal) <= 20);
            assert!(before.vertical.abs_diff(after.vertical) <= 20);
            assert_eq!(before.capacity, after.capacity);
        }
        assert!(changed(lent, left).len() <= 1);
    });
    each(Call::Capacity, |lent, _, left| {
        let [(before, after)] = changed(lent, left)[..] else {
            panic!("one capacity");
        };
        assert_ne!(before.capacity, after.capacity);
        assert_eq!(before.sort, after.sort);
    });
}

#[test]
fn a_step_goes_on_from_half() {
    each(Call::Step, |lent, answer, left| {
        let links = links_of(&lent.list).len();
        assert!(value_of(answer) == 1 && links_of(&left.list).len() == links + 1);
        // Of two sorts, a master may have more of one than the other has.
        assert!((NODES / 3..NODES).contains(&links), "{links}");
    });
}

#[test]
fn a_refused_list_is_wrong_in_its_middle() {
    each(Call::Refused, |lent, answer, left| {
        let row = value_of(answer) as usize;
        assert_eq!(row, links_of(&lent.list).len() / 2);
        assert!(lent == left);
    });
}

#[test]
fn names_pick_calls() {
    assert_eq!(Call::named(""), CALLS);
    assert_eq!(Call::named("edit"), EDITS);
    assert_eq!(Call::named("spare"), [Call::Spare]);
    assert_eq!(Call::named("none"), []);
}

/// At full size too the arrival fits: the drawing then has all its nodes.
#[test]
fn arrivals_fill_a_master() {
    let class = Class {
        shape: Shape::Outline,
        count: Count::Each(512),
        capacities: Capacities::Few,
        sorts: Sorts::Mixed,
    };
    for (seed, drawing) in (0..).zip(class.drawings()) {
        let case = Case::new(&mut Random::new(seed), &drawing, Call::Arrival);
        let mut left = case.lent.clone();
        let answer = Peer::<Same>::default().run(&case.request, &mut left);
        assert_eq!((number_of(answer), counts(&left)), (0, 1_024));
    }
}
