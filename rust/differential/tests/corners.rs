//! Masters in opposite corners of the field: differences of 32,768, which two bytes do not hold, and those next to it.

mod beside;

use beside::Held;
use model::buffers::links_of;
use model::rows::{Edit, Node};
use model::sizes::*;

/// Enough nodes for blocks of each master and each sort, and for loops over eight pairs at a time.
const NODES: u64 = 144;

/// Numbers are multiples of this, so that one is left for an arrival.
const STEP: u64 = 7;

/// The greatest squared distance: that of two corners.
const GREATEST: u64 = 1 << 31;

/// The sort of a master's nth node.
type Sort = fn(u64) -> u64;

/// All of one sort, by turns, and the blocks of one sort behind those of the other.
const SORTS: [Sort; 4] = [
    |_| SORT_ON_CURVE,
    |_| SORT_OFF_CURVE,
    |n| n / 12 % 2,
    |n| u64::from(n > NODES / 2),
];

/// Nodes in a corner, each at the field's edge or next to it.
fn master((horizontal, vertical): (i64, i64), sort: Sort) -> Vec<Node> {
    let inward = |edge: i64, off: u64| edge - edge.signum() * off as i64;
    let node = |n: u64| {
        let (x, y) = (inward(horizontal, n % 2), inward(vertical, n / 2 % 3 / 2));
        Node::new(n * STEP, x, y, n % 5 + 1).with_sort(sort(n))
    };
    (1..=NODES).map(node).collect()
}

/// Of nodes of both sorts where there are such, and with either sort where the edit has one.
fn edits(master: u64, far: (i64, i64)) -> Vec<Edit> {
    let mut edits = Vec::new();
    for sort in [SORT_ON_CURVE, SORT_OFF_CURVE] {
        let new = Node::new(NUMBER_MAX, far.0, far.1, 3).with_sort(sort);
        edits.push(Edit::arrival(master, new));
        let changed = Edit::new_capacity(master, 12 * STEP, CAPACITY_MAX);
        edits.push(changed.with_sort(sort));
    }
    for n in [60, 61, 120, NODES] {
        edits.push(Edit::departure(master, n * STEP));
        edits.push(Edit::moved(master, n * STEP, far.0, -far.1));
    }
    edits
}

#[test]
fn opposite_corners() {
    let corners = [POSITION_MIN, POSITION_MAX];
    let mut edited = 0;
    for sort in SORTS {
        for place in corners.map(|x| corners.map(|y| (x, y))).concat() {
            let opposite = (-place.0, -place.1);
            let what = format!("{place:?}, sorts {:?}", [1, 12, NODES].map(sort));
            let held = Held::new(&what, &master(place, sort), &master(opposite, sort));
            let distances = links_of(&held.list).into_iter().map(|link| link.distance);
            assert_eq!(distances.max(), Some(GREATEST));
            for edit in [edits(MASTER_A, opposite), edits(MASTER_B, place)].concat() {
                held.edited(&what, &edit);
                edited += 1;
            }
        }
    }
    println!("edits between opposite corners: {edited}");
}
