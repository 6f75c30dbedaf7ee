//! Verdicts on tables, through Pair: sound ones of every size, damaged ones of every kind, random bytes, wrong lengths.

use differential::Archive;
use model::answer::answer_of;
use model::buffers::{first_faulty_row, nodes_of};
use model::engine::Engine;
use model::generate::damage::{damage_table, damage_table_often, TABLE_FAULTS};
use model::generate::drawing::{Drawing, SIZES};
use model::generate::lengths::wrong_length;
use model::generate::random::Random;
use model::report::hex;
use model::sizes::*;

/// The answer where this table stands in a master's place, refused with this number if it is faulty. The other
/// master is empty, so that there is no link.
fn expected(table: &[u8], number: u32) -> u32 {
    if table.len() != TABLE_BYTES {
        return answer_of(1, 0);
    }
    match first_faulty_row(table) {
        Some(row) => answer_of(number, row as u32),
        None => 0,
    }
}

/// Pair with the table as A, then as B: the answer is the right one, and only a done call writes.
fn compare(table: &[u8], seed: u64, what: &str) {
    let empty = vec![0; TABLE_BYTES];
    for (number, a, b) in [(2, table, &empty[..]), (3, &empty[..], table)] {
        let (mut list, right) = (vec![0xa5; LIST_BYTES], expected(table, number));
        let answer = Archive.pair(a, b, &mut list);
        let byte = if right == 0 { 0 } else { 0xa5 };
        assert!(
            answer == right && list.iter().all(|other| *other == byte),
            "seed {seed:#x}, {what}: answer {answer:#x}, not {right:#x}, list {}, table {}",
            hex(&list),
            hex(table)
        );
    }
}

#[test]
fn sound_tables() {
    let (mut by_nodes, mut by_sort) = ([0; 3], [0; 2]);
    for seed in 0..1_000 {
        let mut random = Random::new(seed);
        for size in SIZES {
            let drawing = Drawing::random(&mut random, size);
            for table in [drawing.table_a(), drawing.table_b()] {
                assert_eq!(first_faulty_row(&table), None, "model, seed {seed:#x}");
                compare(&table, seed, "sound");
                for node in nodes_of(&table) {
                    by_sort[node.sort as usize] += 1;
                }
                by_nodes[match nodes_of(&table).len() {
                    0 => 0,
                    TABLE_ROWS => 2,
                    _ => 1,
                }] += 1;
            }
        }
    }
    println!("sound tables, empty, in between and full: {by_nodes:?}; nodes by sort: {by_sort:?}");
    assert!(by_nodes.iter().chain(&by_sort).all(|&times| times >= 100));
}

#[test]
fn damaged_tables() {
    let mut met = [0; TABLE_FAULTS.len()];
    let mut several = 0;
    for seed in 0..2_000 {
        let mut random = Random::new(seed);
        let size = random.pick(&SIZES);
        let table = Drawing::random(&mut random, size).table_a();
        for (kind, fault) in TABLE_FAULTS.into_iter().enumerate() {
            let mut damaged = table.clone();
            if let Some(row) = damage_table(&mut random, &mut damaged, fault) {
                // How the damage was done tells the row, not a search for it.
                assert_eq!(first_faulty_row(&damaged), Some(row), "model, {seed:#x}");
                compare(&damaged, seed, &format!("{fault:?}"));
                met[kind] += 1;
            }
        }
        let mut damaged = table;
        if damage_table_often(&mut random, &mut damaged, 3).len() > 1 {
            compare(&damaged, seed, "damaged often");
            several += 1;
        }
    }
    println!("damaged tables, by fault: {met:?}; several faults: {several}");
    assert!(met.iter().all(|&times| times >= 100) && several >= 100);
}

#[test]
fn other_bytes_and_lengths() {
    for seed in 0..2_000 {
        let mut random = Random::new(seed);
        compare(&random.bytes(TABLE_BYTES), seed, "random bytes");
        let length = wrong_length(&mut random, TABLE_BYTES);
        compare(&random.bytes(length), seed, "wrong length");
    }
}
