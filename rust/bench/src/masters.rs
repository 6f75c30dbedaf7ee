//! The nodes of the tables, each sort by itself, and each node found by its number.

use std::mem;

use model::sizes::*;

use crate::bytes::{refill, Node};

/// One for each sort, on-curve first; of each sort one for A and one for B.
pub type BySort<T> = [[T; 2]; 2];

/// A node: its sort, its master, and its place among the nodes of both.
#[derive(Clone, Copy, PartialEq, Eq)]
pub struct End {
    pub sort: usize,
    pub side: usize,
    pub place: usize,
}

/// Places by number: chains of places whose numbers share a slot.
struct Index {
    /// An entry is a place plus 1; 0 ends a chain.
    heads: Vec<u16>,
    nexts: Vec<u16>,
}

const SLOT_BITS: u32 = 10;

/// The upper bits of a product by the golden ratio spread numbers that follow each other.
fn slot(number: u16) -> usize {
    (u32::from(number).wrapping_mul(0x9e37_79b9) >> (u32::BITS - SLOT_BITS)) as usize
}

/// The nodes of one sort in a table; in the order of its rows until they are arranged.
pub struct Master {
    pub nodes: Vec<Node>,
    /// For each node, its row in the table.
    rows: Vec<u16>,
    index: Index,
    /// The nodes and their rows before they were arranged.
    before: Vec<Node>,
    before_rows: Vec<u16>,
}

impl Default for Master {
    fn default() -> Master {
        Master {
            nodes: Vec::with_capacity(TABLE_ROWS),
            rows: Vec::with_capacity(TABLE_ROWS),
            index: Index {
                heads: vec![0; 1 << SLOT_BITS],
                nexts: vec![0; TABLE_ROWS],
            },
            before: Vec::with_capacity(TABLE_ROWS),
            before_rows: Vec::with_capacity(TABLE_ROWS),
        }
    }
}

impl Master {
    /// Puts the nodes that were just read in the order of these places.
    pub fn arrange(&mut self, places: impl Iterator<Item = u16>) {
        mem::swap(&mut self.nodes, &mut self.before);
        mem::swap(&mut self.rows, &mut self.before_rows);
        self.clear();
        for place in places.map(usize::from) {
            self.add(self.before[place], self.before_rows[place]);
        }
    }

    /// Nothing is to be cleared where no node was.
    fn clear(&mut self) {
        if !self.nodes.is_empty() || !self.before.is_empty() {
            self.index.heads.fill(0);
        }
        self.nodes.clear();
        self.rows.clear();
    }

    /// Inlined, as is `find`: these are most of what a second sort would add to drawings of one.
    #[inline(always)]
    fn add(&mut self, node: Node, row: u16) {
        let (place, head) = (self.nodes.len(), slot(node.number));
        self.index.nexts[place] = self.index.heads[head];
        self.index.heads[head] = place as u16 + 1;
        self.nodes.push(node);
        self.rows.push(row);
    }

    /// The place among the nodes.
    pub fn place_of(&self, number: u16) -> Option<usize> {
        let mut entry = self.index.heads[slot(number)];
        while entry != 0 {
            let place = usize::from(entry) - 1;
            if self.nodes[place].number == number {
                return Some(place);
            }
            entry = self.index.nexts[place];
        }
        None
    }

    /// The numbers in order.
    pub fn numbers(&self, numbers: &mut Vec<u16>) {
        refill(numbers, self.nodes.iter().map(|node| node.number));
    }
}

/// Puts the nodes of a table of the stated length in the place of those of this master; or gives the first faulty row.
pub fn read(masters: &mut BySort<Master>, side: usize, table: &[u8]) -> Result<(), usize> {
    let [on, off] = masters;
    let [on, off] = [&mut on[side], &mut off[side]];
    on.clear();
    off.clear();
    let mut nodes = 0;
    for row in table.chunks_exact(NODE_BYTES) {
        let (node, sort) = Node::read(row);
        if node.number == 0 {
            break;
        }
        let is_known = |master: &Master| master.place_of(node.number).is_some();
        if !node.in_range() || u64::from(sort) > SORT_MAX || is_known(on) || is_known(off) {
            return Err(nodes);
        }
        let master = if sort == 0 { &mut *on } else { &mut *off };
        master.add(node, nodes as u16);
        nodes += 1;
    }
    let mut rest = table[nodes * NODE_BYTES..].chunks_exact(NODE_BYTES);
    match rest.position(|row| row != [0; NODE_BYTES]) {
        Some(row) => Err(nodes + row),
        None => Ok(()),
    }
}

/// The node of this number in a master.
#[inline(always)]
pub fn find(masters: &BySort<Master>, side: usize, number: u16) -> Option<End> {
    let [on, off] = masters;
    let end = |sort: usize, place: usize| End { sort, side, place };
    match on[side].place_of(number) {
        Some(place) => Some(end(0, place)),
        None => off[side].place_of(number).map(|place| end(1, place)),
    }
}

/// Its row in the table.
pub fn row_of(masters: &BySort<Master>, end: End) -> usize {
    usize::from(masters[end.sort][end.side].rows[end.place])
}

pub fn node_of(masters: &BySort<Master>, end: End) -> &Node {
    &masters[end.sort][end.side].nodes[end.place]
}

/// The nodes of a master, of both sorts.
pub fn count(masters: &BySort<Master>, side: usize) -> usize {
    masters.iter().map(|sort| sort[side].nodes.len()).sum()
}
