//! The listing program beside the model's reader: sound tables, damaged ones, wrong lengths, random bytes.

mod program;

use std::collections::BTreeMap;

use model::buffers::table_of;
use model::generate::damage::{damage_table, TABLE_FAULTS};
use model::generate::drawing::{Drawing, SIZES};
use model::generate::edits::unknown_number;
use model::generate::lengths::wrong_length;
use model::generate::random::Random;
use model::reader::{find, nodes};
use model::report::hex;
use model::rows::Node;
use model::sizes::*;
use program::Program;

const NODES: Program = Program("nodes");

/// A number and a table, as the program reads them.
fn input(number: u64, table: &[u8]) -> Vec<u8> {
    [&(number as u16).to_le_bytes(), table].concat()
}

fn line(word: &str, node: &Node) -> String {
    let (x, y) = (node.horizontal, node.vertical);
    format!(
        "{word} {} {x} {y} {} {}\n",
        node.number, node.capacity, node.sort
    )
}

/// What the model's reader gives, as the program prints it.
fn expected(number: u64, table: &[u8]) -> String {
    let mut text: String = nodes(table).iter().map(|node| line("node", node)).collect();
    match find(table, number) {
        Some(node) => text += &line("found", &node),
        None => text += "none\n",
    }
    text
}

fn compare(what: &str, number: u64, table: &[u8]) {
    let (text, right) = (NODES.run(&input(number, table)), expected(number, table));
    assert!(
        text == right,
        "{what}, number {number}: {text:?}, not {right:?}, table {}",
        hex(table)
    );
}

/// A number that stands in the table, or one that does not, or 0.
fn some_number(random: &mut Random, nodes: &[Node]) -> u64 {
    match random.below(4) {
        0 => 0,
        1 => unknown_number(random, nodes),
        _ if nodes.is_empty() => 1,
        _ => nodes[random.size(0, nodes.len() - 1)].number,
    }
}

#[test]
fn a_sample() {
    let sample = [
        Node::new(7, -16_384, 16_384, 64),
        Node::off_curve(65_535, 0, -1, 1),
        Node::off_curve(1, 10, 0, 64),
    ];
    let listed = "node 7 -16384 16384 64 0\nnode 65535 0 -1 1 1\nnode 1 10 0 64 1\n";
    let table = table_of(&sample);
    for (number, answer) in [
        (7, "found 7 -16384 16384 64 0\n"),
        (65_535, "found 65535 0 -1 1 1\n"),
        (1, "found 1 10 0 64 1\n"),
        // The rows of these are not their numbers.
        (2, "none\n"),
        (0, "none\n"),
    ] {
        let text = NODES.run(&input(number, &table));
        assert_eq!(text, format!("{listed}{answer}"));
        compare("a sample", number, &table);
    }
}

#[test]
fn sound_tables() {
    let (mut full, mut found, mut sorts) = (0, 0, BTreeMap::new());
    for seed in 0..40 {
        let random = &mut Random::new(seed);
        for size in SIZES {
            let drawing = Drawing::random(random, size);
            for (nodes, table) in [
                (&drawing.a, drawing.table_a()),
                (&drawing.b, drawing.table_b()),
            ] {
                let number = some_number(random, nodes);
                full += usize::from(nodes.len() == TABLE_ROWS);
                found += usize::from(find(&table, number).is_some());
                for node in nodes {
                    *sorts.entry(node.sort).or_insert(0) += 1;
                }
                compare("a sound table", number, &table);
            }
        }
    }
    println!("sound tables: {full} of them full, {found} numbers found, nodes by sort {sorts:?}");
    assert!(full >= 10 && found >= 100 && sorts.values().all(|nodes| *nodes > 5_000));
    assert_eq!(sorts.len(), 2);
}

#[test]
fn faulty_tables() {
    let mut faulty = 0;
    for seed in 0..100 {
        let random = &mut Random::new(seed);
        for fault in TABLE_FAULTS {
            let size = random.pick(&SIZES);
            let drawing = Drawing::random(random, size);
            let mut table = drawing.table_a();
            let number = some_number(random, &drawing.a);
            if damage_table(random, &mut table, fault).is_some() {
                let text = NODES.run(&input(number, &table));
                assert_eq!(text, "none\n", "{fault:?}, table {}", hex(&table));
                faulty += 1;
            }
            compare("a damaged table", number, &table);
        }
    }
    println!("faulty tables: {faulty}");
    assert!(faulty >= 400);
}

#[test]
fn wrong_lengths() {
    for seed in 0..200 {
        let random = &mut Random::new(seed);
        let size = random.pick(&SIZES);
        let drawing = Drawing::random(random, size);
        let mut table = drawing.table_a();
        let number = some_number(random, &drawing.a);
        table.resize(wrong_length(random, TABLE_BYTES), 0);
        assert_eq!(NODES.run(&input(number, &table)), "none\n");
        compare("a wrong length", number, &table);
    }
    for length in [
        0,
        NODE_BYTES,
        TABLE_BYTES - 1,
        TABLE_BYTES + 1,
        10 * TABLE_BYTES,
    ] {
        compare("zeros", 1, &vec![0; length]);
    }
    // Too short for the number.
    for length in [0, 1] {
        assert_eq!(NODES.run(&vec![0; length]), "short\n");
    }
}

#[test]
fn random_bytes() {
    for seed in 0..200 {
        let random = &mut Random::new(seed);
        let table = random.bytes(TABLE_BYTES);
        let number = NODE_NUMBER.read(&table);
        compare("random bytes", number, &table);
    }
}

/// The program reads no further than it needs, and waits for what comes late.
#[test]
fn inputs_in_pieces_or_open() {
    let table = table_of(&[Node::off_curve(3, -5, 6, 7)]);
    let whole = input(3, &table);
    let text = expected(3, &table);
    assert_eq!(NODES.run_slowly(&whole, &[1, 2, 3, 9, TABLE_BYTES]), text);
    let longer = [whole, vec![0]].concat();
    assert_eq!(NODES.run_open(&longer), "none\n");
}
