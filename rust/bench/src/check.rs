//! A lent list checked without a join: its rows one by one, and then the pairs
//! for one that the list passed over wrongly: two blocks at a time, and then a node of one and the block of the other.
//!
//! A pair is open where it is earlier than the last link of both its nodes; a
//! node with something left has no last one. Amounts that are within all
//! capacities and leave no pair open are the join's alone. A check keeps these
//! limits: in the next one, after an edit, only a pair with a node whose limit
//! is later than the one kept can be open.

use std::mem;

use model::sizes::LINK_BYTES;

use crate::blocks::{key, Blocks, Bounds, BLOCK};
use crate::bytes::{link, parts, refill, rows, Link, Node};
use crate::masters::{find, BySort, Master};

/// What is left of each node of a master, and where its partners end.
#[derive(Default)]
struct Side {
    lefts: Vec<u16>,
    /// The key of its partner in its last link; none is too late where something is left.
    limits: Vec<u64>,
    /// Limits with which no pair is open, and the nodes that they are of.
    known: Vec<u64>,
    nodes: Vec<Node>,
    /// The limits that are later than the known ones; the others are 0, before which no pair comes.
    later: Vec<u64>,
}

impl Side {
    fn fill(&mut self, nodes: &[Node]) {
        refill(&mut self.lefts, nodes.iter().map(|node| node.left));
        refill(&mut self.limits, nodes.iter().map(|_| u64::MAX));
    }

    /// Nothing is known: the least limits, with which no pair is open.
    fn forget(&mut self, nodes: &[Node]) {
        refill(&mut self.known, nodes.iter().map(|_| 0));
    }

    /// What the last check made sure of holds for nodes that are where they were.
    fn carry(&mut self, master: &Master) {
        if master.nodes == self.nodes {
            return;
        }
        let kept = mem::take(&mut self.known);
        self.forget(&master.nodes);
        for (node, limit) in self.nodes.iter().zip(kept) {
            if let Some(place) = master.place_of(node.number) {
                if master.nodes[place].same_place(node) {
                    self.known[place] = limit;
                }
            }
        }
    }

    fn keep(&mut self, nodes: &[Node]) {
        self.known.clone_from(&self.limits);
        refill(&mut self.nodes, nodes.iter().copied());
    }

    fn find_later(&mut self) {
        let limits = self.limits.iter().zip(&self.known);
        let later = limits.map(|(limit, known)| if limit > known { *limit } else { 0 });
        refill(&mut self.later, later);
    }

    fn all_later(&self) -> bool {
        self.later == self.limits
    }

    /// The limit holds once nothing is left.
    fn take(&mut self, place: usize, amount: u16, partner: u64) {
        self.lefts[place] -= amount;
        if self.lefts[place] == 0 {
            self.limits[place] = partner;
        }
    }
}

/// A block in columns, so that one pass takes several nodes at a time. Lanes without a node have the limit 0,
/// before which no pair comes.
#[derive(Default)]
struct Lanes {
    xs: [i16; BLOCK],
    ys: [i16; BLOCK],
    numbers: [u32; BLOCK],
    /// A limit's distance and its number.
    limits: [u32; BLOCK],
    others: [u32; BLOCK],
    /// The greatest of the limits.
    latest: u64,
}

impl Lanes {
    fn new(nodes: &[Node], limits: &[u64]) -> Lanes {
        let mut lanes = Lanes::default();
        for (lane, (node, limit)) in nodes.iter().zip(limits).enumerate() {
            lanes.xs[lane] = node.x as i16;
            lanes.ys[lane] = node.y as i16;
            lanes.numbers[lane] = u32::from(node.number);
            [lanes.limits[lane], lanes.others[lane]] = halves(*limit);
            lanes.latest = lanes.latest.max(*limit);
        }
        lanes
    }

    /// Whether a node of the block is open with this one of the other master; no branch but the loop's.
    fn open_with(&self, node: &Node, limit: u64) -> bool {
        let (x, y, number) = (node.x as i16, node.y as i16, u32::from(node.number));
        let [limit, other] = halves(limit);
        let mut open = 0;
        for lane in 0..BLOCK {
            let distance = squared(x, self.xs[lane]) + squared(y, self.ys[lane]);
            let by_a = distance + late(self.numbers[lane], other) <= limit;
            let by_b = distance + late(number, self.others[lane]) <= self.limits[lane];
            open += u32::from(by_a & by_b);
        }
        open != 0
    }
}

/// The square of the difference of two positions. Of all differences 32,768 alone wraps, to its negative, whose square
/// is the same.
fn squared(p: i16, q: i16) -> u32 {
    i32::from(p.wrapping_sub(q)).pow(2) as u32
}

/// The distance and the number of a key.
fn halves(key: u64) -> [u32; 2] {
    [(key >> u32::BITS) as u32, key as u32]
}

/// 0 where the number comes before the other one, so that ties are settled by it.
fn late(number: u32, other: u32) -> u32 {
    u32::from(number >= other)
}

#[derive(Default)]
pub struct Check {
    sides: BySort<Side>,
    lanes: Vec<Lanes>,
}

impl Check {
    /// Whether the list is the finished one of two masters.
    pub fn is_finished(
        &mut self,
        masters: &BySort<Master>,
        blocks: &BySort<Blocks>,
        list: &[u8],
    ) -> bool {
        self.each(masters, |side, master| side.forget(&master.nodes));
        let rest = &list[rows(list).count() * LINK_BYTES..];
        rest.iter().all(|byte| *byte == 0) && self.is_join(masters, blocks, rows(list))
    }

    /// Whether the links are those of the join after an edit, in pair order; the last check said yes to those before it.
    pub fn is_join_again(
        &mut self,
        masters: &BySort<Master>,
        blocks: &BySort<Blocks>,
        links: impl Iterator<Item = Link>,
    ) -> bool {
        self.each(masters, Side::carry);
        self.is_join(masters, blocks, links)
    }

    fn is_join(
        &mut self,
        masters: &BySort<Master>,
        blocks: &BySort<Blocks>,
        links: impl Iterator<Item = Link>,
    ) -> bool {
        self.each(masters, |side, master| side.fill(&master.nodes));
        let mut before = 0;
        for link in links {
            if link.0 <= before || self.spend(masters, link).is_none() {
                return false;
            }
            before = link.0;
        }
        let mut sorts = 0..masters.len();
        if sorts.any(|sort| self.any_open(sort, &masters[sort], &blocks[sort])) {
            return false;
        }
        self.each(masters, |side, master| side.keep(&master.nodes));
        true
    }

    fn each(&mut self, masters: &BySort<Master>, act: impl Fn(&mut Side, &Master)) {
        let sides = self.sides.iter_mut().flatten();
        sides
            .zip(masters.iter().flatten())
            .for_each(|(side, master)| act(side, master));
    }

    /// Takes the amount of a link from both its nodes, which are of one sort; none if the link is wrong.
    fn spend(&mut self, masters: &BySort<Master>, taken: Link) -> Option<()> {
        let (distance, number_a, number_b) = parts(taken);
        let end = find(masters, 0, number_a)?;
        let [a, b] = &masters[end.sort];
        let (i, j) = (end.place, b.place_of(number_b)?);
        let [in_a, in_b] = &mut self.sides[end.sort];
        let amount = in_a.lefts[i].min(in_b.lefts[j]);
        if amount == 0 || taken != link(&a.nodes[i], &b.nodes[j], amount) {
            return None;
        }
        in_a.take(i, amount, key(distance, number_b));
        in_b.take(j, amount, key(distance, number_a));
        Some(())
    }

    /// Blocks serve best around the master whose nodes lie closer together, so the other one's nodes come first; where
    /// all of these are later than known, every pair has then been looked at.
    fn any_open(&mut self, sort: usize, masters: &[Master; 2], blocks: &[Blocks; 2]) -> bool {
        let sides = &mut self.sides[sort];
        for side in sides.iter_mut() {
            side.find_later();
        }
        let first = usize::from(spread(&masters[0].nodes) < spread(&masters[1].nodes));
        let all = sides[first].all_later();
        let lanes = &mut self.lanes;
        let mut open_from = |side: usize| open_from(side, sides, lanes, masters, blocks);
        open_from(first) || !all && open_from(1 - first)
    }
}

/// Whether one of a master's later nodes is open with a node of the other master, both of one sort.
fn open_from(
    side: usize,
    sides: &[Side; 2],
    all: &mut Vec<Lanes>,
    masters: &[Master; 2],
    blocks: &[Blocks; 2],
) -> bool {
    let other = 1 - side;
    let nodes = masters[other].nodes.chunks(BLOCK);
    let parts = nodes.zip(sides[other].limits.chunks(BLOCK));
    let lanes = parts.map(|(nodes, limits)| Lanes::new(nodes, limits));
    refill(all, lanes);
    let groups = masters[side].nodes.chunks(BLOCK);
    let later = sides[side].later.chunks(BLOCK);
    let mut groups = blocks[side].bounds.iter().zip(groups.zip(later));
    groups.any(|(bounds, (nodes, limits))| {
        let group = Group {
            bounds,
            nodes,
            limits,
        };
        group.is_open(&blocks[other], all)
    })
}

/// A block of nodes whose limits are looked at.
struct Group<'a> {
    bounds: &'a Bounds,
    nodes: &'a [Node],
    limits: &'a [u64],
}

impl Group<'_> {
    /// Whether one of its nodes is open with a node of the other master. Skips a block where already the distance of the
    /// two comes too late for all nodes of one of them.
    fn is_open(&self, blocks: &Blocks, lanes: &[Lanes]) -> bool {
        let latest = self.limits.iter().copied().max().unwrap_or(0);
        blocks.bounds.iter().zip(lanes).any(|(bounds, lanes)| {
            let gap = self.bounds.gap(bounds);
            let apart = bounds.key(gap) >= latest || self.bounds.key(gap) >= lanes.latest;
            !apart && self.is_open_with(bounds, lanes)
        })
    }

    fn is_open_with(&self, bounds: &Bounds, lanes: &Lanes) -> bool {
        let mut nodes = self.nodes.iter().zip(self.limits);
        nodes.any(|(node, limit)| open_in_block(node, *limit, bounds, lanes))
    }
}

/// How far the nodes that follow each other are apart, in all.
fn spread(nodes: &[Node]) -> u64 {
    let steps = nodes.iter().zip(nodes.iter().skip(1));
    steps.map(|(one, next)| u64::from(one.distance(next))).sum()
}

/// Skips the block where already its bounds come too late for the node, or for all its own nodes.
fn open_in_block(node: &Node, limit: u64, bounds: &Bounds, lanes: &Lanes) -> bool {
    if bounds.key(0) >= limit {
        return false;
    }
    let distance = bounds.distance(node);
    let late = bounds.key(distance) >= limit || key(distance, node.number) >= lanes.latest;
    !late && lanes.open_with(node, limit)
}
