//! Values for the fields of nodes and edits, good ones and bad ones.

use super::places::{anywhere, extreme, near, Place};
use super::random::Random;
use super::sorts::BOTH_SORTS;
use crate::rows::Node;
use crate::sizes::*;

/// A position that no node may have.
pub fn bad_position(random: &mut Random) -> i64 {
    random.pick(&[
        POSITION_MIN - 1,
        POSITION_MAX + 1,
        NODE_HORIZONTAL.least_signed(),
        NODE_HORIZONTAL.greatest_signed(),
    ])
}

/// A capacity that no node may have.
pub fn bad_capacity(random: &mut Random) -> u64 {
    random.pick(&[CAPACITY_MIN - 1, CAPACITY_MAX + 1, NODE_CAPACITY.greatest()])
}

/// A sort that no node may have.
pub fn bad_sort(random: &mut Random) -> u64 {
    let greatest = NODE_SORT.greatest();
    random.pick(&[SORT_MAX + 1, SORT_MAX + 2, greatest / 2 + 1, greatest])
}

/// A number that none of these nodes has.
pub fn unknown_number(random: &mut Random, nodes: &[Node]) -> u64 {
    let low = random.once_in(2);
    loop {
        let greatest = if low {
            2 * TABLE_ROWS as u64
        } else {
            NUMBER_MAX
        };
        let number = random.unsigned(NUMBER_MIN, greatest);
        if nodes.iter().all(|node| node.number != number) {
            return number;
        }
    }
}

/// A node for this master, with a number that is new to it.
pub fn newcomer(random: &mut Random, nodes: &[Node], a: &[Node], b: &[Node]) -> Node {
    let (horizontal, vertical) = destination(random, a, b);
    let number = unknown_number(random, nodes);
    let capacity = some_capacity(random);
    Node::new(number, horizontal, vertical, capacity).with_sort(some_sort(random, a, b))
}

/// Mostly on or close to a node that is there, so that links are displaced.
pub fn destination(random: &mut Random, a: &[Node], b: &[Node]) -> Place {
    let nodes = if random.once_in(2) { a } else { b };
    match random.below(8) {
        0 => anywhere(random),
        1 => extreme(random),
        _ if nodes.is_empty() => near(random, (0, 0), 4),
        choice => {
            let node = random.pick(nodes);
            let off = if choice < 5 { 2 } else { 60 };
            near(random, (node.horizontal, node.vertical), off)
        }
    }
}

/// Small ones and the ends of the range more often than the rest.
pub fn some_capacity(random: &mut Random) -> u64 {
    match random.below(6) {
        0 => CAPACITY_MAX,
        1 => random.unsigned(CAPACITY_MIN, CAPACITY_MAX),
        _ => random.unsigned(CAPACITY_MIN, CAPACITY_MIN + 3),
    }
}

/// Mostly that of a node that is there, so that a drawing of one sort stays
/// so for a while and links are displaced.
pub fn some_sort(random: &mut Random, a: &[Node], b: &[Node]) -> u64 {
    let nodes = if random.once_in(2) { a } else { b };
    match nodes.is_empty() || random.once_in(4) {
        true => random.pick(&BOTH_SORTS),
        false => random.pick(nodes).sort,
    }
}
