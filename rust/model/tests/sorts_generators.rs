//! The generators over sorts (document 02, P2): each choice is what it says, and
//! is met; faults and edits reach every value that they promise.

use std::collections::{BTreeMap, BTreeSet};

use model::buffers::{first_faulty_row, nodes_of, table_row};
use model::generate::damage::{damage_table, TableFault};
use model::generate::drawing::*;
use model::generate::edits::*;
use model::generate::places::{Family, FAMILIES};
use model::generate::random::Random;
use model::join::squared_distance;
use model::rows::{capacity_in_range, Node};
use model::sizes::*;

fn sorts_in(nodes: &[Node]) -> Vec<u64> {
    nodes.iter().map(|node| node.sort).collect()
}

fn all_of(nodes: &[Node], sort: u64) -> bool {
    nodes.iter().all(|node| node.sort == sort)
}

/// Whether the sorts are as an outline has them.
fn on_off_off(nodes: &[Node]) -> bool {
    let pattern = [SORT_ON_CURVE, SORT_OFF_CURVE, SORT_OFF_CURVE];
    let expected: Vec<u64> = pattern.into_iter().cycle().take(nodes.len()).collect();
    sorts_in(nodes) == expected
}

#[test]
fn sorts_are_as_labelled() {
    let (on, off) = (SORT_ON_CURVE, SORT_OFF_CURVE);
    let mut seed = 0;
    for sorts in SORTS {
        // Ways round that a choice may go, all to be met.
        let mut ways = BTreeSet::new();
        let mut handles = 0;
        let mut nodes = 0;
        for family in FAMILIES {
            for _ in 0..12 {
                seed += 1;
                let mut random = Random::new(seed);
                let capacities = random.pick(&CAPACITIES);
                let numbers = random.pick(&NUMBERS);
                let size = Size::Medium;
                let drawing =
                    Drawing::of_sorts(&mut random, family, size, capacities, numbers, sorts);
                let (a, b) = (&drawing.a[..], &drawing.b[..]);
                let mixed = |nodes: &[Node]| !all_of(nodes, on) && !all_of(nodes, off);
                let fits = match sorts {
                    Sorts::OnCurve => all_of(a, on) && all_of(b, on),
                    Sorts::OffCurve => all_of(a, off) && all_of(b, off),
                    Sorts::Mixed => mixed(a) && mixed(b) && !on_off_off(a) && !on_off_off(b),
                    Sorts::Outline => on_off_off(a) && on_off_off(b),
                    Sorts::Apart => a[0].sort != b[0].sort && !mixed(a) && !mixed(b),
                    Sorts::OneMixed => mixed(a) != mixed(b),
                };
                assert!(fits && drawing.sorts == sorts, "seed {seed}\n{drawing}");
                assert_eq!(first_faulty_row(&drawing.table_a()), None);
                assert_eq!(first_faulty_row(&drawing.table_b()), None);
                let one_sort = if mixed(a) { b[0].sort } else { a[0].sort };
                ways.insert((mixed(a), mixed(b), one_sort));
                let all = a.iter().chain(b);
                handles += all.filter(|node| node.sort == off).count();
                nodes += a.len() + b.len();
            }
        }
        println!("{sorts:?}: {handles} handles of {nodes} nodes");
        let share = handles * 100 / nodes;
        let (ways_met, share_fits) = match sorts {
            Sorts::OnCurve => (1, share == 0),
            Sorts::OffCurve => (1, share == 100),
            Sorts::Mixed => (2, (47..=53).contains(&share)),
            Sorts::Outline => (1, (62..=67).contains(&share)),
            Sorts::Apart => (2, (35..=65).contains(&share)),
            Sorts::OneMixed => (4, (35..=65).contains(&share)),
        };
        assert!(share_fits, "{sorts:?} {share}");
        assert_eq!(ways.len(), ways_met, "{sorts:?} {ways:?}");
    }
}

#[test]
fn drawings_of_old_are_on_curve() {
    for (place, family) in FAMILIES.into_iter().enumerate() {
        let seed = place as u64;
        let (size, capacities, numbers) = (Size::Small, Capacities::Few, Numbers::Low);
        let old = Drawing::of(&mut Random::new(seed), family, size, capacities, numbers);
        let mut random = Random::new(seed);
        let sorts = Sorts::OnCurve;
        let new = Drawing::of_sorts(&mut random, family, size, capacities, numbers, sorts);
        assert_eq!(old, new);
        assert!(all_of(&old.a, SORT_ON_CURVE) && all_of(&old.b, SORT_ON_CURVE));
    }
}

#[test]
fn every_family_meets_every_choice() {
    let mut by_class = BTreeMap::new();
    each_drawing(0, &[(Size::Tiny, 1)], |_, drawing| {
        let class = (drawing.family, drawing.sorts);
        *by_class.entry(class).or_insert(0) += 1;
    });
    assert_eq!(by_class.len(), FAMILIES.len() * SORTS.len());
    // Each choice also with all capacities and numbers, over the families.
    let mut classes = BTreeSet::new();
    each_drawing(0, &[(Size::Tiny, 1)], |_, drawing| {
        classes.insert((drawing.sorts, drawing.capacities, drawing.numbers));
    });
    let all = SORTS.len() * CAPACITIES.len() * NUMBERS.len();
    assert_eq!(classes.len(), all);

    let mut at_random = BTreeMap::new();
    let mut random = Random::new(21);
    for _ in 0..3_000 {
        let drawing = Drawing::random(&mut random, Size::Tiny);
        *at_random.entry(drawing.sorts).or_insert(0) += 1;
    }
    println!("random drawings, by sorts: {at_random:?}");
    assert!(SORTS.iter().all(|sorts| at_random[sorts] > 300));
}

#[test]
fn handles_stand_near_their_node() {
    let families = [
        Family::Clusters,
        Family::Outline,
        Family::Curves,
        Family::Uniform,
        Family::SmallRange,
    ];
    for family in families {
        let (mut nearest, mut handles) = (0, 0);
        for seed in 0..40 {
            let mut random = Random::new(seed);
            let (size, capacities) = (Size::Medium, Capacities::One);
            let (numbers, sorts) = (Numbers::Low, Sorts::Outline);
            let drawing = Drawing::of_sorts(&mut random, family, size, capacities, numbers, sorts);
            for nodes in [&drawing.a, &drawing.b] {
                let on_curve = || nodes.iter().filter(|node| node.sort == SORT_ON_CURVE);
                for with_handles in nodes.chunks(3) {
                    for handle in &with_handles[1..] {
                        let own = squared_distance(&with_handles[0], handle);
                        let least = on_curve().map(|node| squared_distance(node, handle)).min();
                        nearest += u64::from(Some(own) == least);
                        handles += 1;
                    }
                }
            }
        }
        println!("{family:?}: {nearest} of {handles} handles nearest to their node");
        // Dense families have other nodes nearer still to some.
        let least = match family {
            Family::Uniform | Family::Curves => handles * 95 / 100,
            _ => handles * 3 / 4,
        };
        assert!(nearest > least, "{family:?}");
    }
}

#[test]
fn sort_faults_are_of_the_sort_alone() {
    let mut met = BTreeSet::new();
    let (mut first, mut last) = (false, false);
    for seed in 0..600 {
        let mut random = Random::new(seed);
        let sound = Drawing::random(&mut random, Size::Small).table_a();
        let mut table = sound.clone();
        let Some(row) = damage_table(&mut random, &mut table, TableFault::Sort) else {
            assert!(nodes_of(&sound).is_empty());
            continue;
        };
        assert_eq!(first_faulty_row(&table), Some(row));
        let faulty = Node::read(table_row(&table, row));
        let before = Node::read(table_row(&sound, row));
        assert_eq!(faulty.with_sort(before.sort), before, "seed {seed}");
        assert!(capacity_in_range(faulty.capacity));
        met.insert(faulty.sort);
        first |= row == 0;
        last |= row > 0 && row + 1 == nodes_of(&sound).len();
    }
    assert_eq!(met, BTreeSet::from([2, 3, 128, 255]));
    assert!(first && last);
}

#[test]
fn edits_reach_all_that_they_promise() {
    let mut good = BTreeMap::new();
    let mut bad = BTreeSet::new();
    let (mut changed, mut changed_alone, mut new_capacities) = (0, 0, 0);
    for seed in 0..3_000 {
        let mut random = Random::new(seed);
        let drawing = Drawing::random(&mut random, Size::Small);
        let (a, b) = (&drawing.a[..], &drawing.b[..]);
        for kind in KINDS {
            let Some(edit) = good_edit(&mut random, kind, a, b) else {
                continue;
            };
            *good.entry((kind, edit.sort)).or_insert(0) += 1;
            let nodes = if edit.master == MASTER_A { a } else { b };
            let node = nodes.iter().find(|node| node.number == edit.number);
            if let (KIND_CAPACITY, Some(node)) = (kind, node) {
                new_capacities += 1;
                changed += u64::from(node.sort != edit.sort);
                let alone = node.sort != edit.sort && node.capacity == edit.capacity;
                changed_alone += u64::from(alone);
            }
        }
        for kind in BAD_EDITS {
            if let Some(edit) = bad_edit(&mut random, kind, a, b) {
                let at_origin = edit.horizontal == 0 && edit.vertical == 0;
                assert!(edit.kind != KIND_DEPARTURE || kind != BadEdit::SortNotZero || at_origin);
                bad.insert((kind, edit.kind, edit.capacity, edit.sort));
            }
        }
    }
    println!("good edits, by kind and sort: {good:?}");
    println!("new capacities: {new_capacities}, sorts: {changed}, alone: {changed_alone}");
    for kind in [KIND_ARRIVAL, KIND_CAPACITY] {
        assert!([0, 1].iter().all(|sort| good[&(kind, *sort)] > 500));
    }
    let used = good.keys().filter(|(_, sort)| *sort != 0);
    assert!(used
        .map(|(kind, _)| *kind)
        .eq([KIND_ARRIVAL, KIND_CAPACITY]));
    assert!(changed > new_capacities / 3 && changed_alone > new_capacities / 12);

    let met = |bad_edit: BadEdit, kind: u64, sort: u64, fits: fn(u64) -> bool| {
        let like = |(b, k, c, s): &&(BadEdit, u64, u64, u64)| {
            (*b, *k, *s) == (bad_edit, kind, sort) && fits(*c)
        };
        assert!(
            bad.iter().find(like).is_some(),
            "{bad_edit:?} {kind} {sort}"
        );
    };
    for kind in [KIND_ARRIVAL, KIND_CAPACITY] {
        for sort in [2, 3, 128, 255] {
            met(BadEdit::Sort, kind, sort, capacity_in_range);
        }
        for sort in [SORT_ON_CURVE, SORT_OFF_CURVE] {
            met(BadEdit::OutOfRange, kind, sort, |capacity| capacity == 0);
            met(BadEdit::OutOfRange, kind, sort, |capacity| capacity == 65);
        }
    }
    for kind in [KIND_DEPARTURE, KIND_MOVE] {
        for sort in [1, 2, 3, 128, 255] {
            met(BadEdit::SortNotZero, kind, sort, |capacity| capacity == 0);
        }
    }
}
