//! The families of drawings that are timed, and their classes by count, capacities and sorts.

use std::array;
use std::ops::RangeInclusive;

use model::buffers::table_of;
use model::generate::drawing::{Capacities, Sorts, CAPACITIES};
use model::generate::places::{anywhere, near, places, Family, Place};
use model::generate::random::Random;
use model::rows::Node;
use model::sizes::{NUMBER_MAX, POSITION_MIN, TABLE_ROWS};

#[derive(Clone, Copy, Debug, PartialEq, Eq)]
pub enum Shape {
    /// Spread over the whole field.
    Uniform,
    /// Eight steps across and eight up, so that most distances are tied.
    SmallGrid,
    /// The light in a tight cluster, the bold on a line far from it.
    ClusterAndLine,
    /// A glyph's outline with its counter, the bold shifted and thickened.
    Outline,
    /// Light and bold by turns along a line whose gaps shrink: one long chain.
    ShrinkingGaps,
    /// Light and bold by turns along a line, all neighbours tied.
    EqualGaps,
    /// All nodes at one point.
    OnePoint,
    /// Two clusters in opposite corners, most of the light in one, of the bold
    /// in the other.
    TwoClusters,
    /// A closed contour, each node followed by what are its two handles where the drawing has handles.
    Curves,
    /// Outlines with as many nodes as a glyph's have, 40 to 150 in each master.
    Glyph,
    /// Curves with as many.
    GlyphCurves,
}

/// The families that are drawn with any number of nodes.
pub const SHAPES: [Shape; 9] = [
    Shape::Uniform,
    Shape::SmallGrid,
    Shape::ClusterAndLine,
    Shape::Outline,
    Shape::ShrinkingGaps,
    Shape::EqualGaps,
    Shape::OnePoint,
    Shape::TwoClusters,
    Shape::Curves,
];

/// Those with a glyph's number of nodes.
pub const GLYPHS: [Shape; 2] = [Shape::Glyph, Shape::GlyphCurves];

impl Shape {
    pub fn name(self) -> &'static str {
        match self {
            Shape::Uniform => "uniform",
            Shape::SmallGrid => "small grid",
            Shape::ClusterAndLine => "tight cluster, far line",
            Shape::Outline => "outline",
            Shape::ShrinkingGaps => "line, shrinking gaps",
            Shape::EqualGaps => "line, equal gaps",
            Shape::OnePoint => "one point",
            Shape::TwoClusters => "two far clusters",
            Shape::Curves => "curves",
            Shape::Glyph => "glyph outline",
            Shape::GlyphCurves => "glyph curves",
        }
    }

    /// The sorts that are timed beside each other at the same places: curves have handles, the others are half off-curve.
    pub fn sorts(self) -> [Sorts; 2] {
        match self {
            Shape::Curves | Shape::GlyphCurves => [Sorts::OnCurve, Sorts::Outline],
            _ => [Sorts::OnCurve, Sorts::Mixed],
        }
    }

    /// Places of so many nodes of A and as many of B, but for a glyph's.
    fn places(self, random: &mut Random, count: usize) -> (Vec<Place>, Vec<Place>) {
        let grid = |random: &mut Random| (random.signed(0, 7) * 100, random.signed(0, 7) * 100);
        match self {
            Shape::Uniform => (
                each(count, || anywhere(random)),
                each(count, || anywhere(random)),
            ),
            Shape::SmallGrid => (each(count, || grid(random)), each(count, || grid(random))),
            Shape::ClusterAndLine => (
                each(count, || near(random, (-12_000, -500), 10)),
                (0..count as i64).map(|n| (12_000, 30 * n)).collect(),
            ),
            Shape::Outline => places(random, Family::Outline, count, count),
            Shape::Curves => places(random, Family::Curves, count, count),
            Shape::Glyph => glyph(random, Family::Outline, count),
            Shape::GlyphCurves => glyph(random, Family::Curves, count),
            Shape::ShrinkingGaps => by_turns(&shrinking_line(2 * count)),
            Shape::EqualGaps => by_turns(&equal_line(2 * count)),
            Shape::OnePoint => (vec![(321, -123); count], vec![(321, -123); count]),
            Shape::TwoClusters => (
                each(count, || in_corner(random, 1)),
                each(count, || in_corner(random, -1)),
            ),
        }
    }
}

/// So many places of A, and about as many of B.
fn glyph(random: &mut Random, family: Family, count: usize) -> (Vec<Place>, Vec<Place>) {
    let (least, most) = (*GLYPH_NODES.start(), *GLYPH_NODES.end());
    let bold = random.size(count - 8, count + 8).clamp(least, most);
    places(random, family, count, bold)
}

fn each(count: usize, place: impl FnMut() -> Place) -> Vec<Place> {
    std::iter::repeat_with(place).take(count).collect()
}

/// A place near a corner of the field, three times in four this one.
fn in_corner(random: &mut Random, corner: i64) -> Place {
    let corner = if random.once_in(4) { -corner } else { corner };
    near(random, (corner * 15_000, corner * 15_000), 200)
}

fn by_turns(line: &[Place]) -> (Vec<Place>, Vec<Place>) {
    let a = line.iter().step_by(2).copied().collect();
    let b = line.iter().skip(1).step_by(2).copied().collect();
    (a, b)
}

fn equal_line(count: usize) -> Vec<Place> {
    (0..count as i64)
        .map(|n| (POSITION_MIN + 32 * n, 0))
        .collect()
}

/// Gaps from 62 down to 1, each equally often: as long as the field allows two full tables.
fn shrinking_line(count: usize) -> Vec<Place> {
    let greatest = 62;
    let mut across = POSITION_MIN;
    let gap = |n: usize| greatest - (n * greatest as usize / count) as i64;
    (0..count)
        .map(|n| {
            let place = (across, 0);
            across += gap(n);
            place
        })
        .collect()
}

/// Nodes in a master of a glyph's outline.
pub const GLYPH_NODES: RangeInclusive<usize> = 40..=150;

/// Nodes in each master.
#[derive(Clone, Copy, Debug, PartialEq, Eq)]
pub enum Count {
    Each(usize),
    /// Those of glyphs: the drawings of a class have them from the least to the most.
    Glyph,
}

pub const COUNTS: [usize; 4] = [64, 128, 256, 512];

impl Count {
    fn of(self, seed: usize) -> usize {
        match self {
            Count::Each(count) => count,
            Count::Glyph => {
                let (least, most) = (*GLYPH_NODES.start(), *GLYPH_NODES.end());
                least + (most - least) * seed / (DRAWINGS - 1)
            }
        }
    }
}

/// Unlike drawings of each class, so that no call learns one by heart.
pub const DRAWINGS: usize = 5;

#[derive(Clone, Copy, Debug, PartialEq, Eq)]
pub struct Class {
    pub shape: Shape,
    pub count: Count,
    pub capacities: Capacities,
    pub sorts: Sorts,
}

impl Class {
    /// The family's name, and what is off-curve.
    pub fn name(&self) -> String {
        match self.sorts {
            Sorts::OnCurve => self.shape.name().to_string(),
            sorts => format!("{}, {}", self.shape.name(), sorts_name(sorts)),
        }
    }

    /// All classes that are timed, those together that differ in their count and their sorts alone.
    pub fn groups() -> Vec<Vec<Class>> {
        let sized = SHAPES.map(|shape| (shape, COUNTS.map(Count::Each).to_vec()));
        let kinds = sized
            .into_iter()
            .chain(GLYPHS.map(|shape| (shape, vec![Count::Glyph])));
        let groups = kinds.flat_map(|(shape, counts)| {
            CAPACITIES.map(|capacities| {
                let classes = |count: &Count| {
                    let count = *count;
                    shape.sorts().map(|sorts| Class {
                        shape,
                        count,
                        capacities,
                        sorts,
                    })
                };
                counts.iter().flat_map(classes).collect()
            })
        });
        groups.collect()
    }

    /// Those whose sorts have this text in their name.
    pub fn groups_of(text: &str) -> Vec<Vec<Class>> {
        let mut groups = Class::groups();
        for group in &mut groups {
            group.retain(|class| sorts_name(class.sorts).contains(text));
        }
        groups.retain(|group| !group.is_empty());
        groups
    }

    pub fn drawings(self) -> [Drawing; DRAWINGS] {
        array::from_fn(|seed| {
            let random = &mut Random::new(seed as u64);
            let (count, sorts) = (self.count.of(seed), self.sorts);
            Drawing::of_sorts(random, self.shape, count, self.capacities, sorts)
        })
    }
}

#[derive(Clone, Debug, PartialEq)]
pub struct Drawing {
    pub a: Vec<Node>,
    pub b: Vec<Node>,
}

impl Drawing {
    /// All on-curve.
    pub fn new(random: &mut Random, shape: Shape, count: usize, capacities: Capacities) -> Drawing {
        Drawing::of_sorts(random, shape, count, capacities, Sorts::OnCurve)
    }

    /// The same nodes whatever the sorts, which are drawn apart from all else.
    pub fn of_sorts(
        random: &mut Random,
        shape: Shape,
        count: usize,
        capacities: Capacities,
        sorts: Sorts,
    ) -> Drawing {
        let (a, b) = shape.places(random, count);
        let (sorts_a, sorts_b) = sorts.sorts(&mut random.clone(), a.len(), b.len());
        let mut master = |places: &[Place], sorts: &[u64]| {
            let places: Vec<(Place, u64)> =
                places.iter().copied().zip(sorts.iter().copied()).collect();
            master(random, shape, &places, capacities)
        };
        Drawing {
            a: master(&a, &sorts_a),
            b: master(&b, &sorts_b),
        }
    }

    pub fn tables(&self) -> (Vec<u8>, Vec<u8>) {
        (table_of(&self.a), table_of(&self.b))
    }
}

/// What is off-curve, in words.
pub fn sorts_name(sorts: Sorts) -> &'static str {
    match sorts {
        Sorts::OnCurve => "on-curve",
        Sorts::Outline => "with handles",
        _ => "half off-curve",
    }
}

fn master(
    random: &mut Random,
    shape: Shape,
    places: &[(Place, u64)],
    capacities: Capacities,
) -> Vec<Node> {
    let mut numbers = numbers(random, places.len());
    if shape == Shape::ShrinkingGaps {
        // Equal gaps then draw the chain on, towards the lesser number.
        numbers.reverse();
    } else {
        random.shuffle(&mut numbers);
    }
    let node = |((place, sort), number): (&(Place, u64), u64)| {
        Node::new(number, place.0, place.1, capacities.capacity(random)).with_sort(*sort)
    };
    let mut nodes: Vec<Node> = places.iter().zip(numbers).map(node).collect();
    // The first row stays, so that the line of shrinking gaps is entered at its end.
    random.shuffle(&mut nodes[1..]);
    nodes
}

/// So many unlike numbers from the whole range, rising.
fn numbers(random: &mut Random, count: usize) -> Vec<u64> {
    let step = NUMBER_MAX / TABLE_ROWS as u64;
    let number = |n: u64| n * step - random.below(step);
    (1..=count as u64).map(number).collect()
}
