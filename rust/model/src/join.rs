//! The join, three ways that must agree (document 01, The join; document 000,
//! sections 1 and 3.4; document 02, P2).

use crate::rows::{Link, Node};
use crate::sizes::SORT_MAX;

/// Whether the two nodes form a pair at all: those of unlike sorts do not.
pub fn form_pair(a: &Node, b: &Node) -> bool {
    a.sort == b.sort
}

/// The nodes of this sort, in their order.
pub fn of_sort(nodes: &[Node], sort: u64) -> Vec<Node> {
    let of_sort = nodes.iter().filter(|node| node.sort == sort);
    of_sort.copied().collect()
}

/// The square of the horizontal difference plus that of the vertical one.
pub fn squared_distance(a: &Node, b: &Node) -> u64 {
    let horizontal = a.horizontal - b.horizontal;
    let vertical = a.vertical - b.vertical;
    (horizontal * horizontal + vertical * vertical) as u64
}

/// Pair order is the order of these triples: distance, A number, B number.
pub fn pair_key(a: &Node, b: &Node) -> (u64, u64, u64) {
    (squared_distance(a, b), a.number, b.number)
}

/// First way, document 01 to the letter: search all pairs for the earliest
/// whose nodes both have something left, take the lesser, and search again.
pub fn join_by_search(a: &[Node], b: &[Node]) -> Vec<Link> {
    let mut left_a: Vec<u64> = a.iter().map(|node| node.capacity).collect();
    let mut left_b: Vec<u64> = b.iter().map(|node| node.capacity).collect();
    let mut links = Vec::new();
    while let Some((i, j)) = earliest_pair(a, b, &left_a, &left_b) {
        let amount = left_a[i].min(left_b[j]);
        left_a[i] -= amount;
        left_b[j] -= amount;
        links.push(link(&a[i], &b[j], amount));
    }
    links
}

fn earliest_pair(a: &[Node], b: &[Node], left_a: &[u64], left_b: &[u64]) -> Option<(usize, usize)> {
    let open_a: Vec<usize> = (0..a.len()).filter(|i| left_a[*i] > 0).collect();
    let open_b: Vec<usize> = (0..b.len()).filter(|j| left_b[*j] > 0).collect();
    let mut earliest = None;
    let mut earliest_key = (u64::MAX, u64::MAX, u64::MAX);
    for &i in &open_a {
        for &j in &open_b {
            let key = pair_key(&a[i], &b[j]);
            if form_pair(&a[i], &b[j]) && key < earliest_key {
                earliest = Some((i, j));
                earliest_key = key;
            }
        }
    }
    earliest
}

/// Second way: put all pairs in pair order and pass over them once. What is
/// left never grows, so a pair passed over can never be taken later.
pub fn join_by_sorting(a: &[Node], b: &[Node]) -> Vec<Link> {
    let mut pairs = Vec::with_capacity(a.len() * b.len());
    for (i, node_a) in a.iter().enumerate() {
        for (j, node_b) in b.iter().enumerate() {
            if form_pair(node_a, node_b) {
                pairs.push((pair_key(node_a, node_b), i, j));
            }
        }
    }
    pairs.sort_unstable();

    let mut left_a: Vec<u64> = a.iter().map(|node| node.capacity).collect();
    let mut left_b: Vec<u64> = b.iter().map(|node| node.capacity).collect();
    let mut links = Vec::new();
    for (_, i, j) in pairs {
        let amount = left_a[i].min(left_b[j]);
        if amount > 0 {
            left_a[i] -= amount;
            left_b[j] -= amount;
            links.push(link(&a[i], &b[j], amount));
        }
    }
    links
}

/// Third way, document 000: every node becomes as many copies as its capacity;
/// the closest pair of copies is taken and both are removed, one unit at a
/// time. Units of the same pair are then written as one link. One sort after
/// the other, as if the other were not there; the links are then put in order.
pub fn join_by_copies(a: &[Node], b: &[Node]) -> Vec<Link> {
    let mut links = Vec::new();
    for sort in 0..=SORT_MAX {
        links.extend(join_of_copies(&of_sort(a, sort), &of_sort(b, sort)));
    }
    links.sort_by_key(|link| (link.distance, link.a, link.b));
    links
}

fn join_of_copies(a: &[Node], b: &[Node]) -> Vec<Link> {
    let mut copies_a = copies(a);
    let mut copies_b = copies(b);
    let mut links: Vec<Link> = Vec::new();
    while let Some((i, j)) = closest_copies(&copies_a, &copies_b) {
        let unit = link(&copies_a.remove(i), &copies_b.remove(j), 1);
        let same_pair = |link: &&mut Link| link.a == unit.a && link.b == unit.b;
        match links.iter_mut().find(same_pair) {
            Some(link) => link.amount += 1,
            None => links.push(unit),
        }
    }
    links
}

fn copies(nodes: &[Node]) -> Vec<Node> {
    let mut copies = Vec::new();
    for node in nodes {
        for _ in 0..node.capacity {
            copies.push(Node {
                capacity: 1,
                ..*node
            });
        }
    }
    copies
}

fn closest_copies(a: &[Node], b: &[Node]) -> Option<(usize, usize)> {
    let mut closest: Option<(usize, usize)> = None;
    for i in 0..a.len() {
        for j in 0..b.len() {
            let closer = match closest {
                None => true,
                Some((p, q)) => pair_key(&a[i], &b[j]) < pair_key(&a[p], &b[q]),
            };
            if closer {
                closest = Some((i, j));
            }
        }
    }
    closest
}

fn link(a: &Node, b: &Node, amount: u64) -> Link {
    Link {
        a: a.number,
        b: b.number,
        distance: squared_distance(a, b),
        amount,
    }
}
