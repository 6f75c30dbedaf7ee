//! The links after an edit, made from those before it.
//!
//! The old links are followed in pair order, with what each node has left before
//! the edit and after it. The edited node's old links are dropped: before the edit it
//! counts as having nothing. While no node is richer than before, only old links can
//! be taken; a richer node may also be linked to its nearest open partner, and the
//! earliest of all these links is the next one.

use crate::blocks::{Blocks, Bounds, Partner, BLOCK};
use crate::bytes::{link, parts, refill, Link, Node};
use crate::masters::{find, node_of, BySort, End, Master};
use crate::peer::Edited;

/// The repair gives up beyond these: the chain is then as fast. Its cost is that of the blocks scanned and of the looks through the
/// candidates; it may cost so much at first, and so much more for each old link that it passes.
const MOST_CANDIDATES: usize = 64;
const ADVANCE: usize = 32;
const SHARE: usize = 4;

/// The drawing after the edit.
#[derive(Clone, Copy)]
pub struct After<'a> {
    pub masters: &'a BySort<Master>,
    pub blocks: &'a BySort<Blocks>,
}

impl After<'_> {
    fn end(&self, side: usize, number: u16) -> Option<End> {
        find(self.masters, side, number)
    }

    /// The two nearest partners of its sort that have something left; none where there is no such one.
    fn nearest(&self, from: End, left: &mut Left, cost: &mut usize) -> [Option<End>; 2] {
        let (sort, side) = (from.sort, 1 - from.side);
        let nodes = &self.masters[sort][side].nodes;
        let from = node_of(self.masters, from);
        let mut best = [Partner::NONE; 2];
        for block in 0..left.boxes.len() {
            if !left.is_near(block, from, best[1], nodes) {
                continue;
            }
            *cost += 2;
            for (place, node) in left.open(block, nodes) {
                let partner = Partner::new(from, node, place);
                if partner.key < best[0].key {
                    best = [partner, best[0]];
                } else if partner.key < best[1].key {
                    best[1] = partner;
                }
            }
        }
        best.map(|partner| {
            let place = partner.at;
            (partner.key != Partner::NONE.key).then_some(End { sort, side, place })
        })
    }

    /// Where the link of two nodes stands in pair order.
    fn key(&self, one: End, other: End) -> u64 {
        let [a, b] = if one.side == 0 {
            [one, other]
        } else {
            [other, one]
        };
        link(node_of(self.masters, a), node_of(self.masters, b), 0).0
    }
}

/// What each node of a master has left where the repair is, and boxes around those that have something.
#[derive(Default)]
struct Left {
    old: Vec<u16>,
    new: Vec<u16>,
    boxes: Vec<Shrinking>,
}

/// A block's bounds. Once half of the nodes within are used up they are drawn anew around the others.
#[derive(Clone)]
struct Shrinking {
    bounds: Bounds,
    /// None where no node has anything left.
    due: Option<usize>,
}

impl Shrinking {
    fn new(bounds: Bounds, open: usize) -> Shrinking {
        let due = (open > 0).then_some(open.div_ceil(2));
        Shrinking { bounds, due }
    }
}

impl Left {
    /// The nodes of a block that have something left, with their places.
    fn open<'a>(
        &'a self,
        block: usize,
        nodes: &'a [Node],
    ) -> impl Iterator<Item = (usize, &'a Node)> + 'a {
        let (first, end) = (block * BLOCK, nodes.len().min((block + 1) * BLOCK));
        let lefts = &self.new[first..end];
        let nodes = (first..).zip(&nodes[first..end]).zip(lefts);
        nodes.filter_map(|(node, left)| (*left != 0).then_some(node))
    }

    /// Whether a node of the block may come before the best so far.
    fn is_near(&mut self, block: usize, from: &Node, best: Partner, nodes: &[Node]) -> bool {
        let near = |shrinking: &Shrinking| {
            let bounds = &shrinking.bounds;
            shrinking.due.is_some() && bounds.key(bounds.distance(from)) < best.key
        };
        if !near(&self.boxes[block]) {
            return false;
        }
        if self.boxes[block].due == Some(0) {
            let open = || self.open(block, nodes).map(|(_, node)| node);
            self.boxes[block] = Shrinking::new(Bounds::around(open()), open().count());
        }
        near(&self.boxes[block])
    }

    fn is_unchanged(&self, place: usize) -> bool {
        self.old[place] == self.new[place]
    }

    fn has(&self, place: usize) -> bool {
        self.new[place] > 0
    }

    /// Takes the amount from a node.
    fn spend(&mut self, place: usize, amount: u16) {
        let left = &mut self.new[place];
        *left -= amount;
        if *left == 0 && amount > 0 {
            let due = &mut self.boxes[place / BLOCK].due;
            *due = due.map(|due| due.saturating_sub(1));
        }
    }
}

/// A richer node with its nearest open partner; the key is that of their link. The runner-up follows once the partner is
/// used up: partners only ever go away.
#[derive(Clone, Copy)]
struct Candidate {
    key: u64,
    richer: End,
    partner: End,
    runner_up: Option<End>,
}

#[derive(Default)]
pub struct Repair {
    left: BySort<Left>,
    candidates: Vec<Candidate>,
    cost: usize,
    passed: usize,
}

impl Repair {
    /// Puts the new links, in pair order, in the place of those given; none where it gives up.
    pub fn repair(
        &mut self,
        after: After,
        old: impl Iterator<Item = Link>,
        edited: Edited,
        links: &mut Vec<Link>,
    ) -> Option<()> {
        links.clear();
        self.start(after, edited)?;
        for old in old {
            self.take_candidates(after, old.0, links)?;
            self.passed += 1;
            self.follow(after, old, edited, links)?;
        }
        self.take_candidates(after, u64::MAX, links)
    }

    fn start(&mut self, after: After, edited: Edited) -> Option<()> {
        let left = self.left.iter_mut().flatten();
        for (left, master) in left.zip(after.masters.iter().flatten()) {
            refill(&mut left.new, master.nodes.iter().map(|node| node.left));
            left.old.clone_from(&left.new);
        }
        let left = self.left.iter_mut().flatten();
        for (left, blocks) in left.zip(after.blocks.iter().flatten()) {
            let sizes = left.new.chunks(BLOCK).map(<[u16]>::len);
            let boxes = blocks.bounds.iter().cloned().zip(sizes);
            refill(
                &mut left.boxes,
                boxes.map(|(bounds, size)| Shrinking::new(bounds, size)),
            );
        }
        self.candidates.clear();
        self.cost = 0;
        self.passed = 0;
        let Some(end) = after.end(edited.side, edited.number) else {
            return Some(());
        };
        self.left[end.sort][end.side].old[end.place] = 0;
        self.compare(after, end)
    }

    /// Goes past an old link, and takes it as far as it can still be had.
    fn follow(
        &mut self,
        after: After,
        (key, amount): Link,
        edited: Edited,
        links: &mut Vec<Link>,
    ) -> Option<()> {
        let (_, a, b) = parts((key, amount));
        let numbers = [a, b];
        if numbers[edited.side] == edited.number {
            let side = 1 - edited.side;
            let partner = after.end(side, numbers[side])?;
            self.pass(partner, amount)?;
            return self.compare(after, partner);
        }
        let ends = [after.end(0, a)?, after.end(1, b)?];
        let unchanged = ends
            .iter()
            .all(|end| self.left[end.sort][end.side].is_unchanged(end.place));
        for end in ends {
            self.pass(end, amount)?;
        }
        if unchanged {
            self.keep(ends, (key, amount), links);
            return Some(());
        }
        self.take(after, key, ends, links)
    }

    /// The link of two nodes that have as much left as they had is taken as it was: neither becomes richer.
    fn keep(&mut self, ends: [End; 2], old: Link, links: &mut Vec<Link>) {
        links.push(old);
        for end in ends {
            self.left[end.sort][end.side].spend(end.place, old.1);
        }
    }

    /// What the old link took from its node; none if that is more than it had.
    fn pass(&mut self, end: End, amount: u16) -> Option<()> {
        let old = &mut self.left[end.sort][end.side].old[end.place];
        *old = old.checked_sub(amount)?;
        Some(())
    }

    /// Takes the candidates whose links come before this key.
    fn take_candidates(&mut self, after: After, key: u64, links: &mut Vec<Link>) -> Option<()> {
        while let Some(at) = self.earliest_before(key) {
            self.cost += 1 + self.candidates.len() / 16;
            let next = self.candidates[at];
            if self.has(next.partner) {
                self.take(after, next.key, [next.richer, next.partner], links)?;
            } else {
                self.renew(after, at)?;
            }
        }
        Some(())
    }

    fn has(&self, end: End) -> bool {
        self.left[end.sort][end.side].has(end.place)
    }

    /// The candidate's partner is used up: its runner-up follows, or another one is searched for.
    fn renew(&mut self, after: After, at: usize) -> Option<()> {
        let Candidate {
            richer, runner_up, ..
        } = self.candidates[at];
        match runner_up.filter(|end| self.has(*end)) {
            Some(partner) => {
                self.candidates[at] = Candidate {
                    key: after.key(richer, partner),
                    richer,
                    partner,
                    runner_up: None,
                };
                Some(())
            }
            None => {
                self.candidates.swap_remove(at);
                self.compare(after, richer)
            }
        }
    }

    fn earliest_before(&self, key: u64) -> Option<usize> {
        let candidates = self.candidates.iter().enumerate();
        let (at, earliest) = candidates.min_by_key(|(_, candidate)| candidate.key)?;
        (earliest.key < key).then_some(at)
    }

    /// Links two nodes with the lesser of what they have left.
    fn take(
        &mut self,
        after: After,
        key: u64,
        ends: [End; 2],
        links: &mut Vec<Link>,
    ) -> Option<()> {
        let [one, other] = ends.map(|end| self.left[end.sort][end.side].new[end.place]);
        let amount = one.min(other);
        if amount > 0 {
            links.push((key, amount));
        }
        for end in ends {
            self.left[end.sort][end.side].spend(end.place, amount);
            self.compare(after, end)?;
        }
        Some(())
    }

    /// Makes a node a candidate where it has something left and had nothing, and only there: while it had something, its old
    /// links tell the next ones.
    fn compare(&mut self, after: After, end: End) -> Option<()> {
        let left = &self.left[end.sort][end.side];
        let richer = left.new[end.place] > 0 && left.old[end.place] == 0;
        let mut candidates = self.candidates.iter();
        match candidates.position(|candidate| candidate.richer == end) {
            None if richer => return self.search(after, end),
            Some(at) if !richer => drop(self.candidates.swap_remove(at)),
            _ => {}
        }
        Some(())
    }

    fn search(&mut self, after: After, richer: End) -> Option<()> {
        self.cost += 1;
        let left = &mut self.left[richer.sort][1 - richer.side];
        if let [Some(partner), runner_up] = after.nearest(richer, left, &mut self.cost) {
            let key = after.key(richer, partner);
            self.candidates.push(Candidate {
                key,
                richer,
                partner,
                runner_up,
            });
        }
        let cheap = self.cost <= ADVANCE + SHARE * self.passed;
        (cheap && self.candidates.len() <= MOST_CANDIDATES).then_some(())
    }
}
