//! The reader's answers over one table (document 01, Calls).

use model::buffers::table_of;
use model::generate::damage::{damage_table, damage_table_often, TABLE_FAULTS};
use model::generate::drawing::{Drawing, Size};
use model::generate::edits::unknown_number;
use model::generate::lengths::wrong_lend;
use model::generate::random::Random;
use model::reader::{find, nodes};
use model::report::hex;
use model::rows::Node;
use model::sizes::*;

const SIZES_READ: [Size; 4] = [Size::Tiny, Size::Small, Size::Medium, Size::OneFull];

/// A table that gives nothing: no nodes, and none of these found.
fn assert_gives_none(table: &[u8], asked: &[Node], seed: u64) {
    let what = || format!("seed {seed}, table {}", hex(table));
    assert_eq!(nodes(table), [], "{}", what());
    for node in asked {
        assert_eq!(find(table, node.number), None, "{}", what());
    }
}

#[test]
fn nodes_in_row_order_and_by_number() {
    for seed in 0..400 {
        let mut random = Random::new(seed);
        let size = random.pick(&SIZES_READ);
        let drawing = Drawing::random(&mut random, size);
        for master in [&drawing.a, &drawing.b] {
            let table = table_of(master);
            assert_eq!(nodes(&table), *master, "seed {seed}\n{drawing}");
            for node in master.iter().take(20) {
                assert_eq!(find(&table, node.number), Some(*node), "seed {seed}");
            }
            let unknown = unknown_number(&mut random, master);
            assert_eq!(find(&table, unknown), None, "seed {seed}\n{drawing}");
            assert_eq!(find(&table, 0), None, "a zero row is no node");
        }
    }
}

#[test]
fn nothing_of_a_wrong_length() {
    for seed in 0..400 {
        let mut random = Random::new(seed);
        let size = random.pick(&SIZES_READ);
        let drawing = Drawing::random(&mut random, size);
        let table = wrong_lend(&mut random, TABLE_BYTES).of(&drawing.table_a());
        assert_gives_none(&table, &drawing.a[..drawing.a.len().min(5)], seed);
    }
}

#[test]
fn nothing_of_a_faulty_table() {
    let mut damaged = [0; TABLE_FAULTS.len()];
    let mut damaged_often = 0;
    for seed in 0..400 {
        let mut random = Random::new(seed);
        let size = random.pick(&SIZES_READ);
        let drawing = Drawing::random(&mut random, size);
        let asked = &drawing.a[..drawing.a.len().min(5)];
        for (kind, fault) in TABLE_FAULTS.into_iter().enumerate() {
            let mut table = drawing.table_a();
            if damage_table(&mut random, &mut table, fault).is_some() {
                assert_gives_none(&table, asked, seed);
                damaged[kind] += 1;
            }
        }
        let mut table = drawing.table_a();
        if !damage_table_often(&mut random, &mut table, 4).is_empty() {
            assert_gives_none(&table, asked, seed);
            damaged_often += 1;
        }
    }
    println!("faulty tables read, by fault: {damaged:?}, with several: {damaged_often}");
    assert!(damaged.iter().all(|times| *times > 50));
}
