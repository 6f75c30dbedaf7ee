//! The timed families are what they say.

use std::collections::BTreeSet;

use bench::shapes::{Class, Drawing, Shape, DRAWINGS, GLYPHS, GLYPH_NODES, SHAPES};
use model::buffers::{first_faulty_row, nodes_of};
use model::generate::drawing::{Capacities, Sorts, CAPACITIES};
use model::generate::random::Random;
use model::join::squared_distance;
use model::rows::Node;

const FULL: usize = 512;

fn full(shape: Shape) -> Drawing {
    Drawing::new(&mut Random::new(3), shape, FULL, Capacities::Many)
}

/// The light and the bold from left to right, each with whether it is light.
fn along(drawing: &Drawing) -> Vec<(Node, bool)> {
    let light = drawing.a.iter().map(|node| (*node, true));
    let bold = drawing.b.iter().map(|node| (*node, false));
    let mut line: Vec<(Node, bool)> = light.chain(bold).collect();
    line.sort_by_key(|(node, _)| node.horizontal);
    line
}

fn gaps(line: &[(Node, bool)]) -> Vec<i64> {
    let gap = |two: &[(Node, bool)]| two[1].0.horizontal - two[0].0.horizontal;
    line.windows(2).map(gap).collect()
}

#[test]
fn tables_are_sound_and_not_in_number_order() {
    for shape in SHAPES {
        for capacities in CAPACITIES {
            for count in [64, 128, 256, FULL] {
                let drawing = Drawing::new(&mut Random::new(5), shape, count, capacities);
                for (table, nodes) in [
                    (drawing.tables().0, &drawing.a),
                    (drawing.tables().1, &drawing.b),
                ] {
                    assert_eq!(first_faulty_row(&table), None, "{shape:?} {count}");
                    assert_eq!(nodes_of(&table), *nodes, "{shape:?} {count}");
                    let rises = nodes.windows(2).filter(|two| two[0].number < two[1].number);
                    let share = rises.count() * 100 / count;
                    assert!(
                        (30..70).contains(&share),
                        "{shape:?} {count}: {share} % rise"
                    );
                }
            }
        }
    }
}

#[test]
fn capacities_span_their_range() {
    for (capacities, greatest) in CAPACITIES.into_iter().zip([1, 4, 64]) {
        let drawing = Drawing::new(&mut Random::new(3), Shape::Uniform, FULL, capacities);
        let met: BTreeSet<u64> = drawing.a.iter().map(|node| node.capacity).collect();
        assert_eq!((met.first(), met.last()), (Some(&1), Some(&greatest)));
    }
}

#[test]
fn lines_go_by_turns() {
    for shape in [Shape::ShrinkingGaps, Shape::EqualGaps] {
        let line = along(&full(shape));
        assert!(line.windows(2).all(|two| two[0].1 != two[1].1));
        assert!(line.iter().all(|(node, _)| node.vertical == 0));
    }
    let equal = gaps(&along(&full(Shape::EqualGaps)));
    assert!(equal.iter().all(|gap| *gap == equal[0] && *gap > 0));
}

/// Every node but the last is nearer to the next than to the one before, or as
/// near and drawn on by the lesser number; and the first row is the far end.
#[test]
fn shrinking_gaps_make_one_chain() {
    let drawing = full(Shape::ShrinkingGaps);
    let line = along(&drawing);
    let gaps = gaps(&line);
    assert!(gaps.windows(2).all(|two| two[0] >= two[1]) && gaps[0] > *gaps.last().unwrap());
    assert!(gaps.iter().all(|gap| *gap > 0));
    for three in line.windows(3) {
        assert!(three[0].0.number > three[2].0.number);
    }
    assert_eq!(line[0].0, drawing.a[0]);
}

#[test]
fn other_families_are_what_they_say() {
    let places = |nodes: &[Node]| -> BTreeSet<(i64, i64)> {
        nodes
            .iter()
            .map(|node| (node.horizontal, node.vertical))
            .collect()
    };
    let spread = |drawing: &Drawing| places(&drawing.a).len() + places(&drawing.b).len();
    assert!(spread(&full(Shape::Uniform)) > 1_000);
    assert!(spread(&full(Shape::Outline)) > 500);
    assert_eq!(spread(&full(Shape::SmallGrid)), 2 * 64);
    let point = full(Shape::OnePoint);
    assert_eq!(places(&point.a), places(&point.b));
    assert_eq!(spread(&point), 2);

    let far = full(Shape::ClusterAndLine);
    let farthest = |one: &Node, nodes: &[Node]| {
        nodes
            .iter()
            .map(|node| squared_distance(one, node))
            .max()
            .unwrap()
    };
    assert!(farthest(&far.a[0], &far.a) < 1_000);
    assert!(far
        .b
        .iter()
        .all(|node| squared_distance(node, &far.a[0]) > 20_000 * 20_000));
    assert!(far
        .b
        .iter()
        .all(|node| node.horizontal == far.b[0].horizontal));

    let two = full(Shape::TwoClusters);
    let upper = |nodes: &[Node]| nodes.iter().filter(|node| node.vertical > 0).count();
    assert!(upper(&two.a) > FULL * 2 / 3 && upper(&two.b) < FULL / 3 && upper(&two.b) > 0);
    let outer = |node: &Node| node.horizontal.abs() > 14_000 && node.vertical.abs() > 14_000;
    assert!(two.a.iter().chain(&two.b).all(outer));
}

#[test]
fn glyphs_have_glyphs_counts() {
    let classes = Class::groups().concat();
    let glyphs: Vec<&Class> = classes
        .iter()
        .filter(|class| GLYPHS.contains(&class.shape))
        .collect();
    assert_eq!((classes.len(), glyphs.len()), (9 * 4 * 3 * 2 + 12, 12));
    for class in glyphs {
        let counts = class
            .drawings()
            .map(|drawing| [drawing.a.len(), drawing.b.len()]);
        assert!(
            counts
                .iter()
                .flatten()
                .all(|count| GLYPH_NODES.contains(count)),
            "{counts:?}"
        );
        assert_eq!((counts[0][0], counts[DRAWINGS - 1][0]), (40, 150));
        assert!(
            counts.iter().any(|[a, b]| a != b),
            "masters are alike: {counts:?}"
        );
    }
}

/// The same nodes with other sorts: a third on-curve where there are handles, about half elsewhere.
#[test]
fn sorts_are_what_they_say() {
    for class in Class::groups().concat() {
        let on_curve = Class {
            sorts: Sorts::OnCurve,
            ..class
        };
        for (drawing, other) in class.drawings().iter().zip(on_curve.drawings()) {
            for (nodes, others) in [(&drawing.a, other.a), (&drawing.b, other.b)] {
                let bare = |node: &Node| node.with_sort(0);
                assert!(nodes.iter().map(bare).eq(others), "{class:?}");
                let off = nodes.iter().filter(|node| node.sort == 1).count();
                let share = off * 100 / nodes.len();
                let expected = match class.sorts {
                    Sorts::OnCurve => 0..=0,
                    Sorts::Outline => 63..=67,
                    _ => 25..=75,
                };
                assert!(expected.contains(&share), "{class:?}: {share} % off-curve");
            }
        }
    }
}

/// Nearly all handles are as close to a node as a node is to the next one, or closer.
#[test]
fn handles_are_close_to_their_nodes() {
    let random = &mut Random::new(3);
    let drawing = Drawing::of_sorts(random, Shape::Curves, FULL, Capacities::One, Sorts::Outline);
    let (on, off): (Vec<Node>, Vec<Node>) = drawing.a.iter().partition(|node| node.sort == 0);
    let nearest = |from: &Node, to: &[Node]| {
        let distances = to.iter().map(|node| squared_distance(from, node));
        distances.filter(|distance| *distance > 0).min().unwrap()
    };
    let close = off
        .iter()
        .filter(|handle| nearest(handle, &on) <= nearest(&on[0], &on[1..]));
    assert!(close.count() * 10 > off.len() * 9);
}
