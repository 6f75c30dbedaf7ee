//! The peers answer and write as the model does: drawings of every family, damaged tables and lists, histories.

mod support;

use std::collections::BTreeMap;

use bench::cases::{Case, CALLS};
use bench::shapes::{Class, Count, Drawing, SHAPES};
use model::answer::number_of;
use model::buffers::{list_of, table_of};
use model::engine::{Buffers, Request};
use model::generate::damage::{damage_list, damage_table, LIST_FAULTS, TABLE_FAULTS};
use model::generate::drawing::{self, Size, CAPACITIES, NUMBERS, SIZES, SORTS};
use model::generate::edits::{good_edit, KINDS};
use model::generate::history::History;
use model::generate::lengths::wrong_length;
use model::generate::places::FAMILIES;
use model::generate::random::Random;
use model::join::join_by_sorting;
use model::rows::Node;
use model::sizes::*;
use support::Peers;

fn lent(random: &mut Random, a: &[Node], b: &[Node]) -> Buffers {
    Buffers {
        a: table_of(a),
        b: table_of(b),
        list: list_of(&join_by_sorting(a, b)),
        counts: random.bytes(COUNTS_BYTES),
    }
}

#[test]
fn timed_drawings_are_joined() {
    let mut peers = Peers::default();
    let mut drawings = 0;
    for shape in SHAPES {
        for capacities in CAPACITIES {
            for (count, sorts) in [1, 2, 7, 64, 129, 512]
                .into_iter()
                .flat_map(|count| shape.sorts().map(|sorts| (count, sorts)))
            {
                let mut random = Random::new(drawings);
                let drawing = Drawing::of_sorts(&mut random, shape, count, capacities, sorts);
                let what = format!("{shape:?} {count} {capacities:?} {sorts:?} seed {drawings}");
                let mut lent = lent(&mut random, &drawing.a, &drawing.b);
                lent.list = random.bytes(LIST_BYTES);
                peers.run(&what, &Request::Pair, &lent);
                drawings += 1;
            }
        }
    }
    println!("drawings of the timed families joined by both peers: {drawings}");
}

/// The very calls that are timed, on those of their classes that the model gets through quickly.
#[test]
fn timed_calls() {
    let mut peers = Peers::default();
    let mut calls = 0;
    for class in Class::groups().concat() {
        if !matches!(class.count, Count::Each(64) | Count::Glyph) {
            continue;
        }
        for (seed, drawing) in class.drawings().iter().enumerate() {
            for call in CALLS {
                let case = Case::new(&mut Random::new(seed as u64), drawing, call);
                peers.run(&format!("{class:?} {seed}"), &case.request, &case.lent);
                calls += 1;
            }
        }
    }
    println!("timed calls by both peers: {calls}");
    assert!(calls > 1_000);
}

#[test]
fn generated_drawings_are_joined() {
    let plan = [
        (Size::Tiny, 10),
        (Size::Small, 10),
        (Size::Medium, 3),
        (Size::OneFull, 1),
    ];
    let mut peers = Peers::default();
    let mut drawings = 0;
    for (size, repeats) in plan {
        for family in FAMILIES {
            for capacities in CAPACITIES {
                for repeat in 0..repeats * NUMBERS.len() {
                    let mut random = Random::new(drawings);
                    let numbers = NUMBERS[repeat % NUMBERS.len()];
                    let sorts = SORTS[drawings as usize % SORTS.len()];
                    let drawing = drawing::Drawing::of_sorts(
                        &mut random,
                        family,
                        size,
                        capacities,
                        numbers,
                        sorts,
                    );
                    let what = format!("seed {drawings}\n{drawing}");
                    let mut lent = lent(&mut random, &drawing.a, &drawing.b);
                    lent.list = random.bytes(LIST_BYTES);
                    peers.run(&what, &Request::Pair, &lent);
                    drawings += 1;
                }
            }
        }
    }
    println!("drawings of the model's families joined by both peers: {drawings}");
}

#[test]
fn bad_tables_and_lengths_are_refused() {
    let mut peers = Peers::default();
    let mut refused = 0;
    for seed in 0..300 {
        let mut random = Random::new(seed);
        let size = random.pick(&SIZES);
        let drawing = drawing::Drawing::random(&mut random, size);
        let sound = lent(&mut random, &drawing.a, &drawing.b);
        let mut refuse = |lent: Buffers| {
            let (answer, left) = peers.run(&format!("seed {seed}"), &Request::Pair, &lent);
            assert!(number_of(answer) != 0 && left == lent, "seed {seed}");
            refused += 1;
        };
        for fault in TABLE_FAULTS {
            let (mut bad_a, mut bad_b) = (sound.clone(), sound.clone());
            if damage_table(&mut random, &mut bad_a.a, fault).is_some() {
                refuse(bad_a);
            }
            if damage_table(&mut random, &mut bad_b.b, fault).is_some() {
                refuse(bad_b);
            }
        }
        let [mut bad_a, mut bad_b, mut bad_list] = [(); 3].map(|()| sound.clone());
        bad_a.a.resize(wrong_length(&mut random, TABLE_BYTES), 0);
        bad_b.b.resize(wrong_length(&mut random, TABLE_BYTES), 0);
        bad_list
            .list
            .resize(wrong_length(&mut random, LIST_BYTES), 7);
        [bad_a, bad_b, bad_list].into_iter().for_each(refuse);
    }
    println!("joins refused by both peers: {refused}");
    assert!(refused > 2_500);
}

/// A check that says yes too often shows here: every fault of a list, under every call that is lent one.
#[test]
fn damaged_lists() {
    let mut peers = Peers::default();
    let mut numbers: BTreeMap<u32, usize> = BTreeMap::new();
    for seed in 0..400 {
        let mut random = Random::new(seed);
        let size = random.pick(&[Size::Tiny, Size::Small, Size::Small, Size::Medium]);
        let drawing = drawing::Drawing::random(&mut random, size);
        let sound = lent(&mut random, &drawing.a, &drawing.b);
        let kind = random.pick(&KINDS);
        let mut requests = vec![Request::Step, Request::Bands { counts: Vec::new() }];
        if let Some(edit) = good_edit(&mut random, kind, &drawing.a, &drawing.b) {
            let edit = edit.bytes().to_vec();
            requests.push(Request::Edit { edit });
        }
        if let Some(node) = drawing.a.first() {
            let (master, number) = (MASTER_A as u8, node.number as u16);
            requests.push(Request::Spare { master, number });
        }
        let faults = LIST_FAULTS.map(Some).into_iter().chain([None]);
        for fault in faults {
            let mut lent = sound.clone();
            let damaged = fault.map(|fault| damage_list(&mut random, &mut lent.list, fault));
            if damaged == Some(None) {
                continue;
            }
            for request in &requests {
                let what = format!("{fault:?} seed {seed}\n{drawing}");
                let (answer, _) = peers.run(&what, request, &lent);
                *numbers.entry(number_of(answer)).or_default() += 1;
            }
        }
    }
    println!("calls with damaged and sound lists, by answer: {numbers:?}");
    assert!([0, 4, 5].iter().all(|number| numbers[number] > 500));
}

#[test]
fn histories() {
    let mut peers = Peers::default();
    let mut numbers: BTreeMap<u32, usize> = BTreeMap::new();
    for seed in 0..600 {
        let mut random = Random::new(seed);
        let size = random.pick(&[Size::Tiny, Size::Small, Size::OneFull]);
        let history = History::random(&mut random, size, 20);
        let mut held = lent(&mut random, &history.drawing.a, &history.drawing.b);
        for call in &history.calls {
            let mut lent = Buffers {
                a: call.a.of(&held.a),
                b: call.b.of(&held.b),
                list: call.list.of(&held.list),
                counts: Vec::new(),
            };
            if let Request::Bands { counts } = &call.request {
                lent.counts.clone_from(counts);
            }
            let (answer, left) = peers.run(&format!("seed {seed}"), &call.request, &lent);
            *numbers.entry(number_of(answer)).or_default() += 1;
            if call.lends_whole() {
                held = left;
            }
        }
    }
    println!("calls of histories, by answer: {numbers:?}");
    assert!([0, 1, 6, 7, 8, 9].iter().all(|number| numbers[number] > 50));
    assert!(numbers[&10] > 5);
}
