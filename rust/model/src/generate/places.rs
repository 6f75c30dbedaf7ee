//! Where the nodes of a drawing lie, family by family.

use super::contours::{curves, outline};
use super::random::Random;
use crate::sizes::{POSITION_MAX, POSITION_MIN};

/// The shape of a drawing. Each family strains the pair order in its own way.
#[derive(Clone, Copy, Debug, PartialEq, Eq, PartialOrd, Ord)]
pub enum Family {
    /// A grid of a few steps, so that most distances are tied.
    Grid,
    /// Coordinates at, or one off, the ends of the field.
    Extremes,
    /// All nodes at one point.
    OnePoint,
    /// A few dense clusters that both masters share.
    Clusters,
    /// All nodes on one line: level, upright or slanted.
    Line,
    /// A glyph's outline with its counter, the bold shifted and thickened.
    Outline,
    /// A closed contour: each node is followed by its two handles, close to it on
    /// either side, the bold shifted and thickened.
    Curves,
    /// Spread over the whole field.
    Uniform,
    /// Small whole coordinates about the origin.
    SmallRange,
    /// The bold lies exactly on the light, in another order.
    Mirror,
    /// The light about a centre, the bold on one circle: ties of unlike pairs.
    Circle,
    /// The masters in opposite corners: great distances whose roots all but agree.
    Corners,
}

pub const FAMILIES: [Family; 12] = [
    Family::Grid,
    Family::Extremes,
    Family::OnePoint,
    Family::Clusters,
    Family::Line,
    Family::Outline,
    Family::Curves,
    Family::Uniform,
    Family::SmallRange,
    Family::Mirror,
    Family::Circle,
    Family::Corners,
];

/// Horizontal and vertical position.
pub type Place = (i64, i64);

/// Places for so many nodes of A and of B, all within the field.
pub fn places(
    random: &mut Random,
    family: Family,
    count_a: usize,
    count_b: usize,
) -> (Vec<Place>, Vec<Place>) {
    let (a, b) = match family {
        Family::Grid => grid(random, count_a, count_b),
        Family::Extremes => both(random, count_a, count_b, extreme),
        Family::OnePoint => {
            let point = anywhere(random);
            (vec![point; count_a], vec![point; count_b])
        }
        Family::Clusters => clusters(random, count_a, count_b),
        Family::Line => line(random, count_a, count_b),
        Family::Outline => outline(random, count_a, count_b),
        Family::Curves => curves(random, count_a, count_b),
        Family::Uniform => both(random, count_a, count_b, anywhere),
        Family::SmallRange => both(random, count_a, count_b, |random| near(random, (0, 0), 20)),
        Family::Mirror => mirror(random, count_a, count_b),
        Family::Circle => circle(random, count_a, count_b),
        Family::Corners => corners(random, count_a, count_b),
    };
    (clamped(a), clamped(b))
}

/// Any place of the field.
pub fn anywhere(random: &mut Random) -> Place {
    (
        random.signed(POSITION_MIN, POSITION_MAX),
        random.signed(POSITION_MIN, POSITION_MAX),
    )
}

/// A place at, or one off, an end of the field in each direction, or level with
/// the origin.
pub fn extreme(random: &mut Random) -> Place {
    let ends = [
        POSITION_MIN,
        POSITION_MIN,
        POSITION_MIN + 1,
        0,
        POSITION_MAX - 1,
        POSITION_MAX,
        POSITION_MAX,
    ];
    (random.pick(&ends), random.pick(&ends))
}

/// A place at most so far off in each direction, within the field.
pub fn near(random: &mut Random, (horizontal, vertical): Place, off: i64) -> Place {
    clamp((
        horizontal + random.signed(-off, off),
        vertical + random.signed(-off, off),
    ))
}

fn clamp((horizontal, vertical): Place) -> Place {
    (
        horizontal.clamp(POSITION_MIN, POSITION_MAX),
        vertical.clamp(POSITION_MIN, POSITION_MAX),
    )
}

fn clamped(places: Vec<Place>) -> Vec<Place> {
    places.into_iter().map(clamp).collect()
}

fn both(
    random: &mut Random,
    count_a: usize,
    count_b: usize,
    place: impl Fn(&mut Random) -> Place,
) -> (Vec<Place>, Vec<Place>) {
    let a = (0..count_a).map(|_| place(random)).collect();
    let b = (0..count_b).map(|_| place(random)).collect();
    (a, b)
}

fn grid(random: &mut Random, count_a: usize, count_b: usize) -> (Vec<Place>, Vec<Place>) {
    let steps = random.signed(1, 4);
    let width = random.pick(&[1, 1, 2, 100, 4_000]);
    both(random, count_a, count_b, |random| {
        (
            random.signed(0, steps) * width,
            random.signed(0, steps) * width,
        )
    })
}

fn clusters(random: &mut Random, count_a: usize, count_b: usize) -> (Vec<Place>, Vec<Place>) {
    let centres: Vec<Place> = (0..random.size(1, 5)).map(|_| anywhere(random)).collect();
    let off = random.pick(&[2, 30, 500]);
    both(random, count_a, count_b, |random| {
        let centre = random.pick(&centres);
        near(random, centre, off)
    })
}

fn line(random: &mut Random, count_a: usize, count_b: usize) -> (Vec<Place>, Vec<Place>) {
    let start = near(random, (0, 0), 1_000);
    let (across, up) = random.pick(&[(1, 0), (0, 1), (1, 1), (3, -4)]);
    let steps = random.pick(&[10, 300, 3_000]);
    both(random, count_a, count_b, |random| {
        let step = random.signed(-steps, steps);
        (start.0 + across * step, start.1 + up * step)
    })
}

fn mirror(random: &mut Random, count_a: usize, count_b: usize) -> (Vec<Place>, Vec<Place>) {
    let off = random.pick(&[3, 200, POSITION_MAX]);
    let most = count_a.max(count_b);
    let mut light: Vec<Place> = (0..most).map(|_| near(random, (0, 0), off)).collect();
    let mut bold = light.clone();
    random.shuffle(&mut bold);
    light.truncate(count_a);
    bold.truncate(count_b);
    (light, bold)
}

/// Whole points on the circle of radius 25, one of each set of mirror images.
const ON_CIRCLE: [Place; 5] = [(25, 0), (24, 7), (20, 15), (15, 20), (7, 24)];

fn circle(random: &mut Random, count_a: usize, count_b: usize) -> (Vec<Place>, Vec<Place>) {
    let centre = near(random, (0, 0), 2_000);
    let scale = random.pick(&[1, 8, 500]);
    let off = random.pick(&[0, 1, 5]);
    let light = (0..count_a).map(|_| near(random, centre, off)).collect();
    let bold = (0..count_b)
        .map(|_| {
            let (across, up) = random.pick(&ON_CIRCLE);
            let (left, down) = (random.pick(&[1, -1]), random.pick(&[1, -1]));
            (
                centre.0 + left * across * scale,
                centre.1 + down * up * scale,
            )
        })
        .collect();
    (light, bold)
}

fn corners(random: &mut Random, count_a: usize, count_b: usize) -> (Vec<Place>, Vec<Place>) {
    let off = random.signed(1, 6);
    let light = (0..count_a)
        .map(|_| near(random, (POSITION_MIN, POSITION_MIN), off))
        .collect();
    let bold = (0..count_b)
        .map(|_| near(random, (POSITION_MAX, POSITION_MAX), off))
        .collect();
    (light, bold)
}
