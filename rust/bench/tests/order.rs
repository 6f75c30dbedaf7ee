//! Tiles: every row once, by strip, position and number; and each node is still found by its number.

use bench::blocks::BLOCK;
use bench::masters::{count, find, node_of, read, row_of, BySort, Master};
use bench::order::Order;
use model::buffers::{nodes_of, table_of};
use model::generate::drawing::{Drawing, SIZES};
use model::generate::random::Random;

/// Tables of every size and family.
fn tables() -> impl Iterator<Item = Vec<u8>> {
    (0..300).zip(SIZES.into_iter().cycle()).map(|(seed, size)| {
        let drawing = Drawing::random(&mut Random::new(seed), size);
        table_of(&drawing.a)
    })
}

/// The nodes of each sort, in the order of their rows.
fn masters(table: &[u8]) -> [Master; 2] {
    let mut masters = BySort::default();
    assert_eq!(read(&mut masters, 0, table), Ok(()));
    masters.map(|[master, _]| master)
}

#[test]
fn rows_are_in_order() {
    let mut order = Order::default();
    let mut tied = 0;
    for (seed, table) in tables().enumerate() {
        for Master { nodes, .. } in &masters(&table) {
            let mut expected: Vec<u16> = (0..nodes.len() as u16).collect();
            let node = |row: &u16| &nodes[usize::from(*row)];
            expected.sort_by_key(|row| (node(row).y, node(row).x, node(row).number));
            let side = nodes.len().div_ceil(BLOCK).isqrt();
            let side = side + usize::from(side * side * BLOCK < nodes.len());
            for strip in expected.chunks_mut((side * BLOCK).max(1)) {
                strip.sort_by_key(|row| (node(row).x, node(row).y, node(row).number));
            }
            let rows: Vec<u16> = order.rows(nodes).collect();
            assert_eq!(rows, expected, "seed {seed}");
            let place = |row: u16| (nodes[usize::from(row)].x, nodes[usize::from(row)].y);
            let ties = rows.windows(2).filter(|two| place(two[0]) == place(two[1]));
            tied += ties.count();
        }
    }
    println!("neighbours in order at one position: {tied}");
    assert!(tied > 1_000);
}

#[test]
fn arranged_nodes_are_found() {
    let (mut order, mut both) = (Order::default(), BySort::<Master>::default());
    let mut moved = [0; 2];
    for (seed, table) in tables().enumerate() {
        read(&mut both, 0, &table).unwrap();
        for [master, _] in &mut both {
            master.arrange(order.rows(&master.nodes));
        }
        let nodes = nodes_of(&table);
        assert_eq!(count(&both, 0), nodes.len());
        for (row, node) in nodes.iter().enumerate() {
            let end = find(&both, 0, node.number as u16).unwrap();
            assert_eq!((end.sort as u64, end.side), (node.sort, 0), "seed {seed}");
            assert_eq!(row_of(&both, end), row, "seed {seed}");
            let found = node_of(&both, end);
            let place = (i64::from(found.x), i64::from(found.y));
            assert_eq!(place, (node.horizontal, node.vertical), "seed {seed}");
            assert_eq!(u64::from(found.left), node.capacity, "seed {seed}");
            moved[end.sort] += usize::from(end.place != row);
        }
    }
    println!("nodes of each sort that stand elsewhere than in their table: {moved:?}");
    assert!(moved.iter().all(|nodes| *nodes > 2_000));
}

#[test]
fn an_order_is_kept() {
    let mut order = Order::default();
    for (seed, table) in tables().enumerate() {
        let random = &mut Random::new(seed as u64);
        for (mut master, mut again) in masters(&table).into_iter().zip(masters(&table)) {
            master.arrange(order.rows(&master.nodes));
            let mut known = Vec::new();
            master.numbers(&mut known);
            if known.is_empty() {
                continue;
            }
            // One was not there before, wherever its row is, and one is there no more.
            let came = known.remove(random.size(0, known.len() - 1));
            known.insert(random.size(0, known.len()), 0);
            again.arrange(order.resume(&known, came, &again));
            let mut expected = known;
            expected.retain(|number| *number != 0);
            expected.push(came);
            let mut numbers = Vec::new();
            again.numbers(&mut numbers);
            assert_eq!(numbers, expected, "seed {seed}");
        }
    }
}
