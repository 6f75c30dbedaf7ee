//! Masters as the same method has them: each sort in tiles, with its blocks.

use bench::blocks::Blocks;
use bench::masters::{read, BySort, Master};
use bench::order::Order;

#[derive(Default)]
pub struct Arranged {
    pub masters: BySort<Master>,
    pub blocks: BySort<Blocks>,
}

impl Arranged {
    pub fn new(tables: &[Vec<u8>; 2]) -> Arranged {
        let mut arranged = Arranged::default();
        for (side, table) in tables.iter().enumerate() {
            assert_eq!(read(&mut arranged.masters, side, table), Ok(()));
        }
        let blocks = arranged.blocks.iter_mut().flatten();
        for (master, blocks) in arranged.masters.iter_mut().flatten().zip(blocks) {
            master.arrange(Order::default().rows(&master.nodes));
            blocks.fill(&master.nodes);
        }
        arranged
    }
}
