//! Drawings: two masters, labelled with the classes that they were drawn from.

use std::fmt::{Display, Formatter};

use super::places::{places, Family, Place, FAMILIES};
use super::random::Random;
pub use super::sorts::{Sorts, SORTS};
use crate::buffers::table_of;
use crate::report::hex;
use crate::rows::Node;
use crate::sizes::*;

/// How many nodes the masters have.
#[derive(Clone, Copy, Debug, PartialEq, Eq, PartialOrd, Ord)]
pub enum Size {
    /// 0 to 4 in each master.
    Tiny,
    /// 0 to 16 in each master.
    Small,
    /// 17 to 64 in each master.
    Medium,
    /// Any number in each master, from none to as many as a table holds.
    Any,
    /// One master full or up to two short of it, 0 to 4 in the other: cheap, yet full.
    OneFull,
    /// Both masters full.
    Full,
}

pub const SIZES: [Size; 6] = [
    Size::Tiny,
    Size::Small,
    Size::Medium,
    Size::Any,
    Size::OneFull,
    Size::Full,
];

impl Size {
    /// Numbers of nodes of A and of B.
    pub fn counts(self, random: &mut Random) -> (usize, usize) {
        let (low, high) = match self {
            Size::Tiny => (0, 4),
            Size::Small => (0, 16),
            Size::Medium => (17, 64),
            Size::Any => (0, TABLE_ROWS),
            Size::OneFull => {
                let full = random.size(TABLE_ROWS - 2, TABLE_ROWS);
                let few = random.size(0, 4);
                return random.pick(&[(full, few), (few, full)]);
            }
            Size::Full => (TABLE_ROWS, TABLE_ROWS),
        };
        (random.size(low, high), random.size(low, high))
    }
}

#[derive(Clone, Copy, Debug, PartialEq, Eq, PartialOrd, Ord)]
pub enum Capacities {
    /// All the least.
    One,
    /// From the least to four.
    Few,
    /// The whole range.
    Many,
}

pub const CAPACITIES: [Capacities; 3] = [Capacities::One, Capacities::Few, Capacities::Many];

impl Capacities {
    pub fn capacity(self, random: &mut Random) -> u64 {
        let greatest = match self {
            Capacities::One => CAPACITY_MIN,
            Capacities::Few => 4,
            Capacities::Many => CAPACITY_MAX,
        };
        random.unsigned(CAPACITY_MIN, greatest)
    }
}

/// Which numbers the nodes have. Their order is never that of the rows.
#[derive(Clone, Copy, Debug, PartialEq, Eq, PartialOrd, Ord)]
pub enum Numbers {
    /// From the least upwards, with few gaps.
    Low,
    /// Over the whole range, its ends often among them.
    Wide,
}

pub const NUMBERS: [Numbers; 2] = [Numbers::Low, Numbers::Wide];

impl Numbers {
    /// So many unlike numbers, shuffled.
    fn numbers(self, random: &mut Random, count: usize) -> Vec<u64> {
        let mut numbers: Vec<u64> = match self {
            Numbers::Low => (NUMBER_MIN..).take(count + 3).collect(),
            Numbers::Wide => {
                let mut numbers = vec![NUMBER_MIN, NUMBER_MAX];
                while numbers.len() < count + 3 {
                    let number = random.unsigned(NUMBER_MIN, NUMBER_MAX);
                    if !numbers.contains(&number) {
                        numbers.push(number);
                    }
                }
                numbers
            }
        };
        random.shuffle(&mut numbers);
        numbers.truncate(count);
        numbers
    }
}

#[derive(Clone, Debug, PartialEq, Eq)]
pub struct Drawing {
    pub family: Family,
    pub size: Size,
    pub capacities: Capacities,
    pub numbers: Numbers,
    pub sorts: Sorts,
    pub a: Vec<Node>,
    pub b: Vec<Node>,
}

impl Drawing {
    /// A drawing of this size, the other classes drawn at random.
    pub fn random(random: &mut Random, size: Size) -> Drawing {
        let family = random.pick(&FAMILIES);
        let capacities = random.pick(&CAPACITIES);
        let numbers = random.pick(&NUMBERS);
        let sorts = random.pick(&SORTS);
        Drawing::of_sorts(random, family, size, capacities, numbers, sorts)
    }

    /// A drawing of these classes, all on-curve.
    pub fn of(
        random: &mut Random,
        family: Family,
        size: Size,
        capacities: Capacities,
        numbers: Numbers,
    ) -> Drawing {
        Drawing::of_sorts(random, family, size, capacities, numbers, Sorts::OnCurve)
    }

    /// A drawing of these classes.
    pub fn of_sorts(
        random: &mut Random,
        family: Family,
        size: Size,
        capacities: Capacities,
        numbers: Numbers,
        sorts: Sorts,
    ) -> Drawing {
        let (count_a, count_b) = size.counts(random);
        let (mut places_a, mut places_b) = places(random, family, count_a, count_b);
        sorts.place_handles(random, family, &mut places_a);
        sorts.place_handles(random, family, &mut places_b);
        let mut a = master(random, &places_a, capacities, numbers);
        let mut b = master(random, &places_b, capacities, numbers);
        let (sorts_a, sorts_b) = sorts.sorts(random, count_a, count_b);
        set_sorts(&mut a, &sorts_a);
        set_sorts(&mut b, &sorts_b);
        Drawing {
            family,
            size,
            capacities,
            numbers,
            sorts,
            a,
            b,
        }
    }

    pub fn table_a(&self) -> Vec<u8> {
        table_of(&self.a)
    }

    pub fn table_b(&self) -> Vec<u8> {
        table_of(&self.b)
    }
}

/// Calls the test with drawings of every class, as often for each size as the
/// plan says, and gives their number. Seeds count up from the start. The sorts
/// take turns, so that each family meets them all, however few drawings it has.
pub fn each_drawing(start: u64, plan: &[(Size, u64)], mut test: impl FnMut(u64, &Drawing)) -> u64 {
    let mut drawings = 0;
    for (size, repeats) in plan {
        for (place, family) in FAMILIES.into_iter().enumerate() {
            for capacities in CAPACITIES {
                for numbers in NUMBERS {
                    for _ in 0..*repeats {
                        let seed = start + drawings;
                        let mut random = Random::new(seed);
                        // Off by the family, or else a choice would keep to one class.
                        let sorts = SORTS[(drawings as usize + place) % SORTS.len()];
                        let drawing = Drawing::of_sorts(
                            &mut random,
                            family,
                            *size,
                            capacities,
                            numbers,
                            sorts,
                        );
                        test(seed, &drawing);
                        drawings += 1;
                    }
                }
            }
        }
    }
    drawings
}

fn master(
    random: &mut Random,
    places: &[Place],
    capacities: Capacities,
    numbers: Numbers,
) -> Vec<Node> {
    let numbers = numbers.numbers(random, places.len());
    let node = |(number, (horizontal, vertical)): (u64, &Place)| {
        Node::new(number, *horizontal, *vertical, capacities.capacity(random))
    };
    numbers.into_iter().zip(places).map(node).collect()
}

fn set_sorts(nodes: &mut [Node], sorts: &[u64]) {
    for (node, sort) in nodes.iter_mut().zip(sorts) {
        node.sort = *sort;
    }
}

/// The labels, and the tables in hex.
impl Display for Drawing {
    fn fmt(&self, out: &mut Formatter<'_>) -> std::fmt::Result {
        let Drawing {
            family,
            size,
            capacities,
            numbers,
            sorts,
            ..
        } = self;
        writeln!(
            out,
            "{family:?} {size:?} capacities {capacities:?} numbers {numbers:?} sorts {sorts:?}"
        )?;
        writeln!(out, "table A {}", hex(&self.table_a()))?;
        write!(out, "table B {}", hex(&self.table_b()))
    }
}
