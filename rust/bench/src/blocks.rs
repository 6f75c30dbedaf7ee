//! Blocks of nodes that lie close together, and how near a node can be to any of a block: told without a look at
//! its nodes, so that most blocks are skipped.

use crate::bytes::{refill, Node};

/// Nodes in a block, but for the last one.
pub const BLOCK: usize = 32;

/// Where a partner comes among those of one node: nearer first, then the lesser number.
pub fn key(distance: u32, number: u16) -> u64 {
    u64::from(distance) << u32::BITS | u64::from(number)
}

/// The box around the nodes of a block, and the least number among them.
#[derive(Clone)]
pub struct Bounds {
    left: i32,
    right: i32,
    low: i32,
    high: i32,
    least: u16,
}

impl Bounds {
    pub fn around<'a>(nodes: impl Iterator<Item = &'a Node>) -> Bounds {
        let none = Bounds {
            left: i32::MAX,
            right: i32::MIN,
            low: i32::MAX,
            high: i32::MIN,
            least: u16::MAX,
        };
        nodes.fold(none, |bounds, node| Bounds {
            left: bounds.left.min(node.x),
            right: bounds.right.max(node.x),
            low: bounds.low.min(node.y),
            high: bounds.high.max(node.y),
            least: bounds.least.min(node.number),
        })
    }

    /// No node of the block is nearer.
    pub fn distance(&self, from: &Node) -> u32 {
        from.distance(&Node {
            x: from.x.max(self.left).min(self.right),
            y: from.y.max(self.low).min(self.high),
            ..*from
        })
    }

    /// No node of the one block is nearer to one of the other.
    pub fn gap(&self, other: &Bounds) -> u32 {
        let nearest = Node {
            x: other.left.max(self.left).min(self.right),
            y: other.low.max(self.low).min(self.high),
            number: 0,
            left: 0,
        };
        other.distance(&nearest)
    }

    /// No node of the block comes before this as a partner of one at that distance.
    pub fn key(&self, distance: u32) -> u64 {
        key(distance, self.least)
    }
}

/// A partner: its key and where it was found.
#[derive(Clone, Copy)]
pub struct Partner {
    pub key: u64,
    pub at: usize,
}

impl Partner {
    /// Any other comes before it.
    pub const NONE: Partner = Partner {
        key: u64::MAX,
        at: 0,
    };

    pub fn new(from: &Node, node: &Node, at: usize) -> Partner {
        let key = key(from.distance(node), node.number);
        Partner { key, at }
    }
}

/// The bounds of each block of a master's nodes.
#[derive(Default)]
pub struct Blocks {
    pub bounds: Vec<Bounds>,
}

impl Blocks {
    pub fn fill(&mut self, nodes: &[Node]) {
        let blocks = nodes.chunks(BLOCK).map(|block| block.iter());
        refill(&mut self.bounds, blocks.map(Bounds::around));
    }

    /// The nearest partner, ties by number, among those that are open in each block; the one given where none comes
    /// before it.
    pub fn nearest<'a, Open>(
        &self,
        from: &Node,
        mut best: Partner,
        open: impl Fn(usize) -> Open,
    ) -> Partner
    where
        Open: Iterator<Item = (usize, &'a Node)>,
    {
        for (block, bounds) in self.bounds.iter().enumerate() {
            if bounds.key(bounds.distance(from)) >= best.key {
                continue;
            }
            for (at, node) in open(block) {
                let partner = Partner::new(from, node, at);
                if partner.key < best.key {
                    best = partner;
                }
            }
        }
        best
    }
}
