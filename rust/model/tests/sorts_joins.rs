//! The join of nodes of both sorts (document 02, P2): the ways agree, it is the
//! joins of the two sorts merged, and no other amounts have no blocked pair.

use std::collections::BTreeMap;

use model::checks::*;
use model::generate::drawing::{each_drawing, Drawing, Size, Sorts, SORTS};
use model::generate::places::FAMILIES;
use model::generate::random::Random;
use model::join::{form_pair, join_by_copies, join_by_search, join_by_sorting, of_sort};
use model::rows::{Link, Node};
use model::sizes::*;

fn sort_of(nodes: &[Node], number: u64) -> u64 {
    let node = nodes.iter().find(|node| node.number == number);
    node.expect("a known node").sort
}

/// Two lists in pair order as one, row by row the earlier of the two heads.
fn merged(one: &[Link], other: &[Link]) -> Vec<Link> {
    let key = |link: &Link| (link.distance, link.a, link.b);
    let (mut one, mut other) = (one.iter().peekable(), other.iter().peekable());
    let mut links = Vec::new();
    loop {
        let next = match (one.peek(), other.peek()) {
            (Some(x), Some(y)) if key(x) < key(y) => one.next(),
            (Some(_), None) => one.next(),
            (_, _) => other.next(),
        };
        match next {
            Some(link) => links.push(*link),
            None => return links,
        }
    }
}

#[test]
fn the_joins_of_the_two_sorts_merged() {
    let plan = [(Size::Tiny, 40), (Size::Small, 20), (Size::Medium, 2)];
    let mut both = BTreeMap::new();
    let mut interleaved = 0;
    let drawings = each_drawing(9_000_000, &plan, |seed, drawing| {
        let (a, b) = (&drawing.a[..], &drawing.b[..]);
        // Of one sort alone, told nothing of sorts: as document 01 has it.
        let join_of = |sort: u64| {
            let on_curve = |nodes: &[Node]| -> Vec<Node> {
                let of_sort = of_sort(nodes, sort).into_iter();
                of_sort.map(|node| node.with_sort(SORT_ON_CURVE)).collect()
            };
            join_by_search(&on_curve(a), &on_curve(b))
        };
        let (on, off) = (join_of(SORT_ON_CURVE), join_of(SORT_OFF_CURVE));
        let links = join_by_search(a, b);
        let what = || format!("seed {seed}\n{drawing}");
        assert_eq!(links, merged(&on, &off), "{}", what());
        assert_eq!(links, join_by_sorting(a, b), "{}", what());
        let sorts: Vec<u64> = links.iter().map(|link| sort_of(a, link.a)).collect();
        let turns = sorts.windows(2).filter(|two| two[0] != two[1]).count();
        interleaved += u64::from(turns > 1);
        let key = (drawing.sorts, drawing.family);
        *both.entry(key).or_insert(0) += u64::from(!on.is_empty() && !off.is_empty());
    });
    println!("drawings joined as merged: {drawings}, sorts in turns: {interleaved}");
    assert!(interleaved > drawings / 20);
    for sorts in SORTS {
        for family in FAMILIES {
            let times = both[&(sorts, family)];
            let expected = sorts == Sorts::Mixed || sorts == Sorts::Outline;
            assert_eq!(times > 5, expected, "{sorts:?} {family:?} {times}");
        }
    }
}

/// Nodes numbered from 1, each of every choice of position, capacity and sort.
fn all_masters(count: usize, positions: &[i64], most_capacity: u64) -> Vec<Vec<Node>> {
    let mut masters = vec![Vec::new()];
    for number in 1..=count as u64 {
        let mut longer = Vec::new();
        for master in &masters {
            for position in positions {
                for capacity in CAPACITY_MIN..=most_capacity {
                    for sort in 0..=SORT_MAX {
                        let node = Node::new(number, *position, 0, capacity).with_sort(sort);
                        longer.push([&master[..], &[node]].concat());
                    }
                }
            }
        }
        masters = longer;
    }
    masters
}

/// Holds every world of so many nodes against the search by force.
fn only_the_join(count_a: usize, count_b: usize, positions: &[i64], most_capacity: u64) -> u64 {
    let mut worlds = 0;
    let masters_b = all_masters(count_b, positions, most_capacity);
    for a in all_masters(count_a, positions, most_capacity) {
        for b in &masters_b {
            let links = join_by_search(&a, b);
            assert_eq!(links, join_by_sorting(&a, b), "{a:?} {b:?}");
            assert_eq!(links, join_by_copies(&a, b), "{a:?} {b:?}");
            assert_eq!(fault_of_links(&a, b, &links), None, "{a:?} {b:?}");
            let amounts = amounts_of(&a, b, &links).expect("links of known nodes");
            assert_eq!(all_unblocked(&a, b), [amounts], "{a:?} {b:?}");
            worlds += 1;
        }
    }
    worlds
}

#[test]
fn only_the_join_has_no_blocked_pair_in_any_tiny_world() {
    let mut worlds = 0;
    for (count_a, count_b) in [(0, 2), (1, 1), (2, 1), (1, 2)] {
        worlds += only_the_join(count_a, count_b, &[0, 1, 3], 3);
    }
    worlds += only_the_join(2, 2, &[0, 1], 2);
    worlds += only_the_join(2, 2, &[0, 1, 3], 1);
    worlds += only_the_join(3, 2, &[0, 1], 1);
    worlds += only_the_join(2, 3, &[0, 1], 1);
    println!("tiny worlds with sorts, all of them: {worlds}");
    assert_eq!(
        worlds,
        324 + 324 + 5_832 + 5_832 + 4_096 + 1_296 + 1_024 + 1_024
    );
}

/// The checks can fail over sorts: a link between unlike sorts is seen, however
/// right all else about it is, and such a pair is never blocked.
#[test]
fn links_of_unlike_sorts_are_seen() {
    let (mut unlike, mut ignorant) = (0, 0);
    for seed in 9_500_000..9_502_000 {
        let mut random = Random::new(seed);
        let drawing = Drawing::random(&mut random, Size::Small);
        let (a, b) = (&drawing.a[..], &drawing.b[..]);
        let none = vec![vec![0; b.len()]; a.len()];
        for (i, in_a) in a.iter().enumerate() {
            for (j, in_b) in b.iter().enumerate() {
                let blocked = is_blocked(a, b, &none, i, j);
                assert_eq!(blocked, form_pair(in_a, in_b), "seed {seed}\n{drawing}");
                if !blocked {
                    let distance = model::join::squared_distance(in_a, in_b);
                    let link = [Link::new(in_a.number, in_b.number, distance, 1)];
                    assert!(!links_well_formed(a, b, &link), "seed {seed}\n{drawing}");
                    assert_eq!(amounts_of(a, b, &link), None, "seed {seed}\n{drawing}");
                    unlike += 1;
                }
            }
        }
        // A join that knows no sorts is wrong wherever it differs.
        let on_curve = |nodes: &[Node]| -> Vec<Node> {
            let nodes = nodes.iter();
            nodes.map(|node| node.with_sort(SORT_ON_CURVE)).collect()
        };
        let links = join_by_sorting(&on_curve(a), &on_curve(b));
        let differs = links != join_by_sorting(a, b);
        let fault = fault_of_links(a, b, &links);
        assert_eq!(fault.is_some(), differs, "seed {seed}\n{drawing}");
        ignorant += u64::from(differs);
    }
    println!("links of unlike sorts: {unlike}, joins that know no sorts: {ignorant}");
    assert!(unlike > 20_000 && ignorant > 800);
}
