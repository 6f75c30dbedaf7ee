//! The engine's own method, each sort by itself: nodes in tiles, the check without a join, the chain, and links that are repaired.

use crate::blocks::Blocks;
use crate::bytes::{rows, Link};
use crate::chain::Chain;
use crate::check::Check;
use crate::masters::{BySort, Master};
use crate::order::Order;
use crate::peer::{Edited, Method};
use crate::repair::{After, Repair};

#[derive(Default)]
pub struct Same {
    order: Order,
    blocks: BySort<Blocks>,
    check: Check,
    chain: Chain,
    repair: Repair,
}

impl Method for Same {
    fn arrange(&mut self, masters: &mut BySort<Master>, side: usize) {
        for (masters, blocks) in masters.iter_mut().zip(&mut self.blocks) {
            let master = &mut masters[side];
            master.arrange(self.order.rows(&master.nodes));
            blocks[side].fill(&master.nodes);
        }
    }

    fn rearrange(&mut self, masters: &mut BySort<Master>, edited: Edited, known: &[Vec<u16>; 2]) {
        let Edited { side, number } = edited;
        let parts = masters.iter_mut().zip(&mut self.blocks).zip(known);
        for ((masters, blocks), known) in parts {
            let master = &mut masters[side];
            master.arrange(self.order.resume(known, number, master));
            blocks[side].fill(&master.nodes);
        }
    }

    fn join(&mut self, masters: &BySort<Master>, links: &mut Vec<Link>) {
        self.chain.join(masters, &self.blocks, links);
    }

    fn is_finished(&mut self, masters: &BySort<Master>, list: &[u8]) -> bool {
        self.check.is_finished(masters, &self.blocks, list)
    }

    /// Repaired links are kept only where the check says yes to them.
    fn repair(
        &mut self,
        masters: &BySort<Master>,
        list: &[u8],
        edited: Edited,
        links: &mut Vec<Link>,
    ) {
        let blocks = &self.blocks;
        let after = After { masters, blocks };
        let repaired = self.repair.repair(after, rows(list), edited, links);
        let new = links.iter().copied();
        if repaired.is_none() || !self.check.is_join_again(masters, blocks, new) {
            self.join(masters, links);
        }
    }
}
