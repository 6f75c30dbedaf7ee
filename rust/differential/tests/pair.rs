//! Pair beside the model's: every answer and every byte of the list, over all
//! families, sizes, capacities and sorts; and what it must refuse, with number and row.

mod support;

use differential::Archive;
use model::answer::number_of;
use model::buffers::list_of;
use model::calls;
use model::engine::Engine;
use model::generate::damage::{damage_table, TABLE_FAULTS};
use model::generate::drawing::{Drawing, Size, CAPACITIES, NUMBERS, SIZES, SORTS};
use model::generate::lengths::wrong_length;
use model::generate::places::FAMILIES;
use model::generate::random::Random;
use model::join::{join_by_search, join_by_sorting};
use model::report::hex;
use model::rows::Link;
use model::sizes::*;
use support::{numbers_decide, Tally};

/// Bytes on either side of the list that are not lent; odd, so that it is not aligned.
const MARGIN: usize = 33;
/// Up to so many pairs the model also joins by search.
const SEARCHED_PAIRS: usize = 256;
/// A count of nodes that no table exceeds.
const ALL: usize = TABLE_ROWS;

/// Size, the most nodes kept of A and of B, and how many drawings of each family,
/// capacities and numbers.
const PLAN: [(Size, usize, usize, u64); 12] = [
    (Size::Tiny, ALL, ALL, 40),
    (Size::Small, ALL, ALL, 50),
    (Size::Medium, ALL, ALL, 40),
    (Size::Any, ALL, ALL, 3),
    (Size::OneFull, ALL, ALL, 14),
    (Size::Full, ALL, ALL, 1),
    (Size::Full, 0, ALL, 1),
    (Size::Full, ALL, 0, 1),
    (Size::Full, 1, ALL, 1),
    (Size::Full, ALL, 1, 1),
    (Size::Full, 7, ALL, 1),
    (Size::Full, ALL, 7, 1),
];

/// Random bytes for a list and its margins.
fn lent_list(random: &mut Random) -> Vec<u8> {
    random.bytes(MARGIN + LIST_BYTES + MARGIN)
}

/// Pairs into the list between the margins of a copy of the lent bytes; gives
/// the answer and the whole copy.
fn pair_within(lent: &[u8], a: &[u8], b: &[u8]) -> (u32, Vec<u8>) {
    let mut after = lent.to_vec();
    let list = MARGIN..lent.len() - MARGIN;
    let answer = Archive.pair(a, b, &mut after[list]);
    (answer, after)
}

/// Where the lent bytes first differ from the expected ones, by row of the list.
fn first_difference(after: &[u8], expected: &[u8]) -> String {
    let Some(place) = (0..after.len()).find(|&place| after[place] != expected[place]) else {
        return "no byte differs".to_string();
    };
    let Some(offset) = place.checked_sub(MARGIN) else {
        return format!("byte {} ahead of the list differs", MARGIN - place);
    };
    let start = place - offset % LINK_BYTES;
    let row = start..(start + LINK_BYTES).min(after.len());
    format!(
        "byte {offset} of the list differs; from the start of its row {} it has {}, not {}",
        offset / LINK_BYTES,
        hex(&after[row.clone()]),
        hex(&expected[row])
    )
}

fn compare(seed: u64, drawing: &Drawing, lent: &[u8]) -> Vec<Link> {
    let links = join_by_sorting(&drawing.a, &drawing.b);
    if drawing.a.len() * drawing.b.len() <= SEARCHED_PAIRS {
        let searched = join_by_search(&drawing.a, &drawing.b);
        assert_eq!(links, searched, "model, seed {seed:#x}\n{drawing}");
    }
    let mut expected = lent.to_vec();
    expected[MARGIN..MARGIN + LIST_BYTES].copy_from_slice(&list_of(&links));
    let (answer, after) = pair_within(lent, &drawing.table_a(), &drawing.table_b());
    assert!(
        answer as usize == links.len() && after == expected,
        "seed {seed:#x}\n{drawing}\nanswer {answer}, not {}; {}",
        links.len(),
        first_difference(&after, &expected)
    );
    links
}

/// Calls the test with drawings of every class of the plan. The sorts take turns, so that each family meets them all in
/// each line of the plan.
fn each_drawing(mut test: impl FnMut(u64, &mut Random, &Drawing)) {
    let mut seed = 0;
    for (size, most_a, most_b, repeats) in PLAN {
        for (place, family) in FAMILIES.into_iter().enumerate() {
            for capacities in CAPACITIES {
                for numbers in NUMBERS {
                    for _ in 0..repeats {
                        let random = &mut Random::new(seed);
                        // Off by the family, or else a choice would keep to one class.
                        let sorts = SORTS[(seed as usize + place) % SORTS.len()];
                        let mut drawing =
                            Drawing::of_sorts(random, family, size, capacities, numbers, sorts);
                        drawing.a.truncate(most_a);
                        drawing.b.truncate(most_b);
                        test(seed, random, &drawing);
                        seed += 1;
                    }
                }
            }
        }
    }
}

#[test]
fn joins_of_every_class() {
    let mut tally = Tally::default();
    each_drawing(|seed, random, drawing| {
        let links = compare(seed, drawing, &lent_list(random));
        tally.count(drawing, &links);
    });
    println!("{tally}");
    assert_eq!(tally.empty_cells(), [], "cells never met");
    assert_eq!(tally.empty_sorts(), [], "sorts never met");
    assert!(tally.drawings() >= 10_000);
    assert!(5 * tally.decided_by_numbers() >= 2 * tally.linked());
}

fn assert_refused(seed: u64, what: &str, a: &[u8], b: &[u8], lent: &[u8]) {
    let expected = calls::pair(a, b, &mut lent[MARGIN..lent.len() - MARGIN].to_vec());
    assert!(number_of(expected) != 0, "model, seed {seed:#x}, {what}");
    let (answer, after) = pair_within(lent, a, b);
    assert!(
        answer == expected && after == lent,
        "seed {seed:#x}, {what}: answer {answer:#x}, not {expected:#x}, list of {} bytes; {}\ntable A {}\ntable B {}",
        lent.len() - 2 * MARGIN,
        first_difference(&after, lent),
        hex(a),
        hex(b)
    );
}

#[test]
fn damaged_tables_are_refused() {
    // By fault: A damaged, B damaged, both.
    let mut met = [[0; 3]; TABLE_FAULTS.len()];
    for seed in 0..1_000 {
        let mut random = Random::new(seed);
        let size = random.pick(&SIZES);
        let drawing = Drawing::random(&mut random, size);
        let lent = lent_list(&mut random);
        let (a, b) = (drawing.table_a(), drawing.table_b());
        for (kind, fault) in TABLE_FAULTS.into_iter().enumerate() {
            let (mut bad_a, mut bad_b) = (a.clone(), b.clone());
            let in_a = damage_table(&mut random, &mut bad_a, fault).is_some();
            let in_b = damage_table(&mut random, &mut bad_b, fault).is_some();
            let lends = [
                (in_a, &bad_a, &b),
                (in_b, &a, &bad_b),
                (in_a && in_b, &bad_a, &bad_b),
            ];
            for (place, (damaged, a, b)) in lends.into_iter().enumerate() {
                if damaged {
                    assert_refused(seed, &format!("{fault:?}"), a, b, &lent);
                    met[kind][place] += 1;
                }
            }
        }
    }
    println!("damaged tables refused, by fault and place: {met:?}");
    assert!(met.iter().flatten().all(|&times| times >= 100));
}

/// The buffer with a wrong length: zeros behind it, or cut.
fn resized(bytes: &[u8], length: usize) -> Vec<u8> {
    let mut resized = bytes.to_vec();
    resized.resize(length, 0);
    resized
}

#[test]
fn wrong_lengths_are_refused() {
    let mut refused = [0; 7];
    for seed in 0..1_000 {
        let mut random = Random::new(seed);
        let size = random.pick(&SIZES);
        let drawing = Drawing::random(&mut random, size);
        let (a, b, lent) = (drawing.table_a(), drawing.table_b(), lent_list(&mut random));
        // Each set of wrong buffers but the empty one.
        for wrong in 1..=refused.len() {
            let mut lend = |bit: usize, bytes: &[u8], stated: usize| {
                let other = wrong_length(&mut random, stated);
                let length = if wrong & bit == 0 { stated } else { other };
                resized(bytes, length + bytes.len() - stated)
            };
            let (a, b) = (lend(1, &a, TABLE_BYTES), lend(2, &b, TABLE_BYTES));
            let lent = lend(4, &lent, LIST_BYTES);
            assert_refused(seed, "wrong lengths", &a, &b, &lent);
            refused[wrong - 1] += 1;
        }
    }
    println!("wrong lengths refused, by set of buffers: {refused:?}");
}

/// Pulls the nodes onto a coarse grid, so that distances are tied.
fn snap(drawing: &mut Drawing, step: i64) {
    for node in drawing.a.iter_mut().chain(&mut drawing.b) {
        node.horizontal -= node.horizontal % step;
        node.vertical -= node.vertical % step;
    }
}

#[test]
#[ignore = "long: cargo test --release --test pair -- --ignored --nocapture"]
fn a_million_small_drawings() {
    const DRAWINGS: u64 = 1_000_000;
    /// Counts of nodes of a master: none to eight.
    const COUNTS: usize = 9;
    let lent = lent_list(&mut Random::new(0));
    let mut met = [[0_u64; COUNTS]; COUNTS];
    let mut decided = [0_u64; FAMILIES.len()];
    for seed in 0..DRAWINGS {
        let random = &mut Random::new(seed);
        let (capacities, numbers) = (random.pick(&CAPACITIES), random.pick(&NUMBERS));
        let family = seed as usize % FAMILIES.len();
        let (size, sorts) = (Size::Small, random.pick(&SORTS));
        let mut drawing =
            Drawing::of_sorts(random, FAMILIES[family], size, capacities, numbers, sorts);
        drawing.a.truncate(drawing.a.len() % COUNTS);
        drawing.b.truncate(drawing.b.len() % COUNTS);
        snap(&mut drawing, random.pick(&[1, 4, 512, 4_096, 16_384]));
        let links = compare(seed, &drawing, &lent);
        met[drawing.a.len()][drawing.b.len()] += 1;
        decided[family] += u64::from(numbers_decide(&drawing, &links));
    }
    println!("small drawings: {DRAWINGS}; by nodes of A and of B: {met:?}");
    println!("of {FAMILIES:?} so many in which ties decide: {decided:?}");
    assert!(met.iter().flatten().all(|&times| times >= 1_000));
    assert!(decided.iter().all(|&times| times >= 10_000));
}
