//! Places along the closed contours of a glyph.

use super::places::{near, Place};
use super::random::Random;

/// A node and its two handles, in this order of rows.
pub const NODE_WITH_HANDLES: usize = 3;

/// Sixteen directions on a circle of this radius, near enough.
const DIRECTION_RADIUS: i64 = 1_000;
const DIRECTIONS: [Place; 16] = [
    (1_000, 0),
    (924, 383),
    (707, 707),
    (383, 924),
    (0, 1_000),
    (-383, 924),
    (-707, 707),
    (-924, 383),
    (-1_000, 0),
    (-924, -383),
    (-707, -707),
    (-383, -924),
    (0, -1_000),
    (383, -924),
    (707, -707),
    (924, -383),
];

/// So many places along a closed outline about the centre, evenly.
fn contour(centre: Place, (across, up): Place, count: usize) -> Vec<Place> {
    let count = count as i64;
    let corner = |k: i64| DIRECTIONS[k as usize % DIRECTIONS.len()];
    (0..count)
        .map(|n| {
            let along = n * DIRECTIONS.len() as i64;
            let (from, to) = (corner(along / count), corner(along / count + 1));
            let rest = along % count;
            let between = |from: i64, to: i64| (from * (count - rest) + to * rest) / count;
            (
                centre.0 + between(from.0, to.0) * across / DIRECTION_RADIUS,
                centre.1 + between(from.1, to.1) * up / DIRECTION_RADIUS,
            )
        })
        .collect()
}

pub fn outline(random: &mut Random, count_a: usize, count_b: usize) -> (Vec<Place>, Vec<Place>) {
    let centre = near(random, (0, 0), 2_000);
    let (across, up) = (random.signed(200, 900), random.signed(300, 1_200));
    let stem = random.signed(40, 120);
    let thicker = random.signed(5, 60);
    let shifted = near(random, centre, 40);
    let glyph = |centre, stem: i64, grown: i64, count: usize| {
        let outer = contour(centre, (across + grown, up + grown), count - count / 2);
        let counter = contour(
            centre,
            (across - stem - grown, up - stem - grown),
            count / 2,
        );
        [outer, counter].concat()
    };
    let light = glyph(centre, stem, 0, count_a);
    let bold = glyph(shifted, stem, thicker, count_b);
    (light, bold)
}

/// Nodes evenly along one contour, each followed by a handle back and a handle
/// forth along it. Rows that are not enough for a node with both have the first.
pub fn curves(random: &mut Random, count_a: usize, count_b: usize) -> (Vec<Place>, Vec<Place>) {
    let centre = near(random, (0, 0), 2_000);
    let (across, up) = (random.signed(200, 900), random.signed(300, 1_200));
    let thicker = random.signed(5, 60);
    let shifted = near(random, centre, 40);
    // How many parts of the way to the neighbours a handle goes one of.
    let parts = random.signed(3, 8);
    let shape = |random: &mut Random, centre, grown: i64, count: usize| {
        let nodes = contour(
            centre,
            (across + grown, up + grown),
            count.div_ceil(NODE_WITH_HANDLES),
        );
        let mut places = Vec::new();
        for (n, node) in nodes.iter().enumerate() {
            let before = nodes[(n + nodes.len() - 1) % nodes.len()];
            let after = nodes[(n + 1) % nodes.len()];
            let back = toward(*node, before, parts);
            let forth = toward(*node, after, parts);
            places.extend([*node, near(random, back, 3), near(random, forth, 3)]);
        }
        places.truncate(count);
        places
    };
    let light = shape(random, centre, 0, count_a);
    let bold = shape(random, shifted, thicker, count_b);
    (light, bold)
}

/// One of so many parts of the way.
fn toward(from: Place, to: Place, parts: i64) -> Place {
    (
        from.0 + (to.0 - from.0) / parts,
        from.1 + (to.1 - from.1) / parts,
    )
}
