//! The join of the same method: the nearest-neighbour chain in plain safe Rust.
//!
//! A stack of nodes, by turns of one master and of the other, each the nearest open partner of the
//! one beneath it. Where the nearest partner of the top is the node beneath it, the
//! two are each other's nearest and so a link of the join. What is left of the
//! stack stays true, since partners only ever go away; it is never built anew.

use crate::blocks::{Blocks, Partner, BLOCK};
use crate::bytes::{link, refill, Link, Node};
use crate::masters::{BySort, Master};

/// The nodes of a master, and where the open ones stand.
#[derive(Default)]
struct Side {
    /// In each block the open nodes stand first, in no order.
    nodes: Vec<Node>,
    /// For each of them, its place in the master.
    places: Vec<u16>,
    /// For each place in the master, where its node stands now.
    spots: Vec<u16>,
    /// For each block, the end of its open nodes.
    ends: Vec<usize>,
    /// How many are open.
    open: usize,
}

impl Side {
    fn open(&mut self, nodes: &[Node]) {
        self.nodes.clear();
        self.nodes.extend(nodes);
        refill(&mut self.places, 0..nodes.len() as u16);
        self.spots.clone_from(&self.places);
        let ends = (0..nodes.len()).step_by(BLOCK);
        refill(
            &mut self.ends,
            ends.map(|first| (first + BLOCK).min(nodes.len())),
        );
        self.open = nodes.len();
    }

    fn spot(&self, place: u16) -> usize {
        usize::from(self.spots[usize::from(place)])
    }

    fn node(&self, place: u16) -> &Node {
        &self.nodes[self.spot(place)]
    }

    fn block(&self, block: usize) -> impl Iterator<Item = (usize, &Node)> {
        let first = block * BLOCK;
        (first..).zip(&self.nodes[first..self.ends[block]])
    }

    /// The place of an open node; there is one.
    fn first(&self) -> u16 {
        let mut firsts = (0..).step_by(BLOCK).zip(&self.ends);
        let open = firsts.find(|(first, end)| first < *end);
        self.places[open.map_or(0, |(first, _)| first)]
    }

    /// Takes the amount from the node; true if that used it up.
    fn take(&mut self, place: u16, amount: u16) -> bool {
        let spot = self.spot(place);
        self.nodes[spot].left -= amount;
        let used_up = self.nodes[spot].left == 0;
        if used_up {
            self.close(spot);
        }
        used_up
    }

    /// Puts the last open node of the block here.
    fn close(&mut self, spot: usize) {
        let end = &mut self.ends[spot / BLOCK];
        *end -= 1;
        self.nodes[spot] = self.nodes[*end];
        self.places[spot] = self.places[*end];
        self.spots[usize::from(self.places[spot])] = spot as u16;
        self.open -= 1;
    }
}

#[derive(Default)]
pub struct Chain {
    /// A, then B.
    sides: [Side; 2],
    /// Places; those at even heights are of the master of the bottom.
    stack: Vec<u16>,
    bottom: usize,
}

impl Chain {
    /// One sort after the other.
    pub fn join(
        &mut self,
        masters: &BySort<Master>,
        blocks: &BySort<Blocks>,
        links: &mut Vec<Link>,
    ) {
        links.clear();
        for (masters, blocks) in masters.iter().zip(blocks) {
            for (side, master) in self.sides.iter_mut().zip(masters) {
                side.open(&master.nodes);
            }
            self.take_links(blocks, links);
        }
        links.sort_unstable();
    }

    fn take_links(&mut self, blocks: &[Blocks; 2], links: &mut Vec<Link>) {
        self.stack.clear();
        while self.sides.iter().all(|side| side.open > 0) {
            let Some(&top) = self.stack.last() else {
                self.stack.push(self.sides[0].first());
                self.bottom = 0;
                continue;
            };
            let side = (self.bottom + self.stack.len() - 1) % 2;
            let nearest = self.nearest(&blocks[1 - side], side, top);
            match self.stack[..] {
                [.., beneath, _] if beneath == nearest => {
                    links.push(self.link_top(side, top, beneath));
                }
                _ => self.stack.push(nearest),
            }
        }
    }

    /// The place of the top's nearest open partner. The search starts with the node beneath the top: the two are near
    /// each other, so that most blocks are skipped.
    fn nearest(&self, blocks: &Blocks, side: usize, top: u16) -> u16 {
        let (from, others) = (self.sides[side].node(top), &self.sides[1 - side]);
        let start = match self.stack[..] {
            [.., beneath, _] => Partner::new(from, others.node(beneath), others.spot(beneath)),
            _ => Partner::NONE,
        };
        let nearest = blocks.nearest(from, start, |block| others.block(block));
        others.places[nearest.at]
    }

    /// Links the top and the node beneath it. A used-up node goes from the stack
    /// with all above it; the node then on top has lost its nearest partner. Where hardly a node would stay, a top that has
    /// something left begins a new stack.
    fn link_top(&mut self, side: usize, top: u16, beneath: u16) -> Link {
        let ends = [
            *self.sides[side].node(top),
            *self.sides[1 - side].node(beneath),
        ];
        let amount = ends[0].left.min(ends[1].left);
        let [a, b] = [&ends[side], &ends[1 - side]];
        let taken = link(a, b, amount);
        let top_used_up = self.sides[side].take(top, amount);
        self.stack.pop();
        if self.sides[1 - side].take(beneath, amount) {
            self.stack.pop();
            if self.stack.len() <= 1 && !top_used_up {
                self.stack.clear();
                self.stack.push(top);
                self.bottom = side;
            }
        }
        taken
    }
}
