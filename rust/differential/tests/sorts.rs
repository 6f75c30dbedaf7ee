//! Drawings of two sorts beside the model, where the nodes of a sort end with a block of rows, or a node ahead of it or
//! behind it: masters full and with room for one more, nodes that come, go, and change their sort there and back.

mod beside;

use beside::Held;
use model::buffers::{links_of, nodes_of};
use model::generate::drawing::{Capacities, Drawing, Numbers, Size, Sorts, CAPACITIES, NUMBERS};
use model::generate::edits::unknown_number;
use model::generate::places::{Family, FAMILIES};
use model::generate::random::Random;
use model::rows::{Edit, Node};
use model::sizes::*;

/// Rows that the engine keeps a box around.
const BLOCK: usize = 32;
/// Nodes in the other master, where the model is to be quick.
const FEW: usize = 24;
/// A place, a capacity and a number for each node of a full drawing.
fn full(random: &mut Random, family: Family, capacities: Capacities) -> Drawing {
    let numbers = random.pick(&NUMBERS);
    Drawing::of_sorts(
        random,
        family,
        Size::Full,
        capacities,
        numbers,
        Sorts::OnCurve,
    )
}

/// Makes so many of the nodes on-curve and all others off-curve, wherever they stand.
fn split(random: &mut Random, nodes: &mut [Node], on_curve: usize) {
    let mut order: Vec<usize> = (0..nodes.len()).collect();
    random.shuffle(&mut order);
    for (place, row) in order.into_iter().enumerate() {
        nodes[row].sort = if place < on_curve {
            SORT_ON_CURVE
        } else {
            SORT_OFF_CURVE
        };
    }
}

/// The two masters in the order lent.
fn held(what: &str, master: u64, nodes: &[Node], others: &[Node]) -> Held {
    match master {
        MASTER_A => Held::new(what, nodes, others),
        _ => Held::new(what, others, nodes),
    }
}

fn of_sort(nodes: &[Node], sort: u64) -> Vec<Node> {
    nodes
        .iter()
        .copied()
        .filter(|node| node.sort == sort)
        .collect()
}

/// The nodes of a sort that may stand in its last row: the last one of the table, and the rightmost of all, of the top
/// ones that are left where strips of blocks are full, and of the topmost.
fn last_ones(nodes: &[Node], sort: u64) -> Vec<Node> {
    let mut nodes = of_sort(nodes, sort);
    let Some(last) = nodes.last().copied() else {
        return Vec::new();
    };
    nodes.sort_by_key(|node| (node.vertical, node.horizontal, node.number));
    let side = (1..).find(|side| nodes.len() <= side * side * BLOCK);
    let strip = side.map_or(BLOCK, |side| side * BLOCK);
    let rightmost = |nodes: &[Node]| {
        let key = |node: &&Node| (node.horizontal, node.vertical, node.number);
        *nodes.iter().max_by_key(key).unwrap()
    };
    let top = nodes.chunks(strip).next_back().unwrap();
    let mut ones = vec![
        last,
        rightmost(&nodes),
        rightmost(top),
        nodes[nodes.len() - 1],
    ];
    ones.sort_by_key(|node| node.number);
    ones.dedup();
    ones
}

/// The edit that gives a node another sort and leaves its capacity.
fn to_sort(master: u64, node: &Node, sort: u64) -> Edit {
    Edit::new_capacity(master, node.number, node.capacity).with_sort(sort)
}

/// A node changes its sort and changes it back: all is as it was.
fn there_and_back(what: &str, before: &Held, master: u64, node: &Node) {
    let there = before.edited(what, &to_sort(master, node, SORT_MAX - node.sort));
    let back = there.edited(what, &to_sort(master, node, node.sort));
    assert!(back == *before, "there and back, {node:?}, {what}");
}

/// A new node of this sort close to one of the others.
fn newcomer(random: &mut Random, nodes: &[Node], others: &[Node], sort: u64) -> Node {
    let near = random.pick(others);
    Node {
        number: unknown_number(random, nodes),
        horizontal: near.horizontal,
        vertical: near.vertical,
        capacity: random.unsigned(CAPACITY_MIN, 3),
        sort,
    }
}

/// On-curve nodes of a full master: most in one sort, ends of blocks, none, and half.
const SPLITS: [usize; 6] = [0, 32, 33, 256, 480, 511];

#[test]
fn great_drawings() {
    let (mut drawings, mut links) = (0, [0; 2]);
    for (kind, family) in FAMILIES.into_iter().enumerate() {
        for (place, on_curve) in SPLITS.into_iter().enumerate() {
            let random = &mut Random::new(drawings);
            let capacities = CAPACITIES[(kind + place) % CAPACITIES.len()];
            let Drawing { mut a, mut b, .. } = full(random, family, capacities);
            split(random, &mut a, on_curve);
            // Each pair of splits is met in some family.
            let other = SPLITS[(kind + place) % SPLITS.len()];
            split(random, &mut b, other);
            let what = format!(
                "{family:?} {capacities:?} {on_curve} and {other} on-curve, seed {drawings}"
            );
            let before = Held::new(&what, &a, &b);
            for link in links_of(&before.list) {
                let node = a.iter().find(|node| node.number == link.a).unwrap();
                links[node.sort as usize] += 1;
            }
            let master = random.pick(&[MASTER_A, MASTER_B]);
            let (nodes, others) = if master == MASTER_A {
                (&a, &b)
            } else {
                (&b, &a)
            };
            let node = random.pick(nodes);
            there_and_back(&what, &before, master, &node);
            let gone = before.edited(&what, &Edit::departure(master, node.number));
            let new = newcomer(random, nodes, others, SORT_MAX - node.sort);
            gone.edited(&what, &Edit::arrival(master, new));
            let moved = Edit::moved(master, node.number, new.horizontal, new.vertical);
            before.edited(&what, &moved);
            drawings += 1;
        }
    }
    println!("full drawings of two sorts: {drawings}, links of each sort: {links:?}");
    assert!(links.iter().all(|links| *links > 5_000));
}

/// Counts of a sort at the ends of blocks, with those one off.
fn block_ends() -> impl Iterator<Item = usize> {
    let ends = (BLOCK..=TABLE_ROWS).step_by(BLOCK);
    ends.flat_map(|end| [end - 1, end, end + 1])
        .filter(|count| *count <= TABLE_ROWS)
}

#[test]
fn the_ends_of_blocks() {
    let (mut drawings, mut arrivals, mut departures) = (0, [0; 2], [0; 2]);
    for count in block_ends() {
        let totals = [count + 5, TABLE_ROWS - 1, TABLE_ROWS];
        let totals = totals
            .into_iter()
            .filter(|total| (count..=TABLE_ROWS).contains(total));
        for (total, sort) in totals.flat_map(|total| [(total, 0), (total, 1)]) {
            let random = &mut Random::new(drawings);
            let family = FAMILIES[drawings as usize % FAMILIES.len()];
            let capacities = random.pick(&CAPACITIES);
            let master = random.pick(&[MASTER_A, MASTER_B]);
            let Drawing {
                a: mut nodes,
                b: mut others,
                ..
            } = full(random, family, capacities);
            nodes.truncate(total);
            others.truncate(FEW);
            split(
                random,
                &mut nodes,
                if sort == 0 { count } else { total - count },
            );
            split(random, &mut others, FEW / 2);
            let what = format!("{count} of sort {sort} of {total}, {family:?}, seed {drawings}");
            let before = held(&what, master, &nodes, &others);
            for sort in [SORT_ON_CURVE, SORT_OFF_CURVE] {
                if total < TABLE_ROWS {
                    let new = newcomer(random, &nodes, &others, sort);
                    let come = before.edited(&what, &Edit::arrival(master, new));
                    let gone = come.edited(&what, &Edit::departure(master, new.number));
                    assert!(gone == before, "{what}");
                    there_and_back(&what, &come, master, &new);
                    arrivals[sort as usize] += 1;
                }
                for node in last_ones(&nodes, sort) {
                    before.edited(&what, &Edit::departure(master, node.number));
                    there_and_back(&what, &before, master, &node);
                    departures[sort as usize] += 1;
                }
            }
            drawings += 1;
        }
    }
    println!("drawings at the ends of blocks: {drawings}, arrivals {arrivals:?}, departures {departures:?}");
    assert!(arrivals.iter().chain(&departures).all(|edits| *edits > 150));
}

/// One sort after the other, by turns, and some of one and then some of the other.
const ORDERS: [fn(usize) -> u64; 4] = [
    |n| u64::from(n < TABLE_ROWS / 2),
    |n| u64::from(n >= BLOCK),
    |n| n as u64 % 2,
    |n| (n / BLOCK) as u64 % 2,
];

/// Node after node comes until the master is full, changes its sort, and goes.
#[test]
fn every_count_of_a_sort() {
    let mut edits = 0;
    for (place, order) in ORDERS.into_iter().enumerate() {
        let random = &mut Random::new(place as u64);
        let family = [Family::Uniform, Family::Grid, Family::Line, Family::Curves][place];
        let (capacities, numbers) = (Capacities::Few, Numbers::Wide);
        let sorts = Sorts::OnCurve;
        let drawing = Drawing::of_sorts(random, family, Size::Full, capacities, numbers, sorts);
        let (mut nodes, mut others) = (drawing.a, drawing.b);
        others.truncate(FEW / 2);
        split(random, &mut others, FEW / 4);
        for (n, node) in nodes.iter_mut().enumerate() {
            node.sort = order(n);
        }
        let master = [MASTER_A, MASTER_B][place % 2];
        let mut held = held("empty", master, &[], &others);
        let mut make = |edit: Edit| {
            held = held.edited(&format!("order {place}, edit {edits}"), &edit);
            edits += 1;
        };
        nodes
            .iter()
            .for_each(|node| make(Edit::arrival(master, *node)));
        for node in &nodes {
            make(to_sort(master, node, SORT_MAX - node.sort));
        }
        let mut left = nodes.clone();
        random.shuffle(&mut left);
        left.iter()
            .for_each(|node| make(Edit::departure(master, node.number)));
        let table = if master == MASTER_A { &held.a } else { &held.b };
        assert!(nodes_of(table).is_empty() && links_of(&held.list).is_empty());
    }
    println!("edits from an empty master to a full one and back: {edits}");
}
