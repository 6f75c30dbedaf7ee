//! The plain way, what a good ordinary programmer writes: all pairs of one sort packed into
//! integers, sorted, and passed over once. Every buffer is kept between joins.

use crate::bytes::{link, Link, Node};
use crate::masters::{BySort, Master};
use crate::peer::Method;

#[derive(Default)]
pub struct Sorted {
    /// The nodes of each master with their sorts.
    a: Vec<(Node, usize)>,
    b: Vec<(Node, usize)>,
    pairs: Vec<u64>,
}

/// Bits of a rank: a table has no more nodes than these can count.
const RANK_BITS: u32 = 9;
const RANK_MASK: u64 = (1 << RANK_BITS) - 1;

impl Method for Sorted {
    fn join(&mut self, masters: &BySort<Master>, links: &mut Vec<Link>) {
        self.a.clear();
        self.b.clear();
        for (sort, [a, b]) in masters.iter().enumerate() {
            self.a.extend(a.nodes.iter().map(|node| (*node, sort)));
            self.b.extend(b.nodes.iter().map(|node| (*node, sort)));
        }
        self.sort_pairs();
        self.take_pairs(links);
    }

    /// It knows no other way than to join and compare.
    fn is_finished(&mut self, _: &BySort<Master>, _: &[u8]) -> bool {
        false
    }
}

impl Sorted {
    /// With the nodes in the order of their numbers, ranks settle ties as the
    /// numbers do, and are short enough to pack.
    fn sort_pairs(&mut self) {
        self.a.sort_unstable_by_key(|(node, _)| node.number);
        self.b.sort_unstable_by_key(|(node, _)| node.number);
        self.pairs.clear();
        for (rank, (a, sort)) in (0..).zip(&self.a) {
            let pair = |(other, (b, _)): (u64, &(Node, usize))| {
                (u64::from(a.distance(b)) << RANK_BITS | rank) << RANK_BITS | other
            };
            let others = (0..).zip(&self.b).filter(|(_, (_, other))| other == sort);
            self.pairs.extend(others.map(pair));
        }
        self.pairs.sort_unstable();
    }

    fn take_pairs(&mut self, links: &mut Vec<Link>) {
        let mut open = [0, 1].map(|sort| sum(&self.a, sort).min(sum(&self.b, sort)));
        links.clear();
        for pair in &self.pairs {
            if open == [0, 0] {
                break;
            }
            let (a, sort) = &mut self.a[(pair >> RANK_BITS & RANK_MASK) as usize];
            let (b, _) = &mut self.b[(pair & RANK_MASK) as usize];
            let amount = a.left.min(b.left);
            if amount > 0 {
                a.left -= amount;
                b.left -= amount;
                open[*sort] -= u32::from(amount);
                links.push(link(a, b, amount));
            }
        }
    }
}

/// What the nodes of this sort have left.
fn sum(nodes: &[(Node, usize)], sort: usize) -> u32 {
    let of_sort = nodes.iter().filter(|(_, other)| *other == sort);
    of_sort.map(|(node, _)| u32::from(node.left)).sum()
}
