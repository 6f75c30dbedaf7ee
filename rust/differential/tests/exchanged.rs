//! The masters lent in the opposite order, through the archive: the same links with their numbers exchanged, the same
//! spare of every node, the same counts; with drawings of every choice of sorts in every family.

use std::collections::BTreeSet;

use differential::Archive;
use model::buffers::links_of;
use model::checks::fault_of_exchange;
use model::engine::Engine;
use model::generate::drawing::{each_drawing, Drawing, Size, SORTS};
use model::generate::places::FAMILIES;
use model::rows::Link;
use model::sizes::*;

/// Every number up to this is asked for, and those of the nodes.
const NUMBERS: u64 = 12;

/// Two tables in the order lent, and the list that Pair writes for them over other bytes.
struct Paired<'t> {
    a: &'t [u8],
    b: &'t [u8],
    answer: u32,
    list: Vec<u8>,
}

impl<'t> Paired<'t> {
    fn new(a: &'t [u8], b: &'t [u8], filled: u8) -> Paired<'t> {
        let mut list = vec![filled; LIST_BYTES];
        let answer = Archive.pair(a, b, &mut list);
        Paired { a, b, answer, list }
    }

    fn spare(&self, master: MasterArgument, number: u64) -> u32 {
        Archive.spare(self.a, self.b, &self.list, master, number as NumberArgument)
    }

    fn bands(&self, length: usize) -> (u32, Vec<u8>) {
        let mut counts = vec![7; length];
        let answer = Archive.bands(self.a, self.b, &self.list, &mut counts);
        (answer, counts)
    }
}

/// Gives whether the rows stand in another order.
fn compare(seed: u64, drawing: &Drawing) -> bool {
    let what = || format!("seed {seed}\n{drawing}");
    let (a, b) = (drawing.table_a(), drawing.table_b());
    let (one, other) = (Paired::new(&a, &b, 0x5a), Paired::new(&b, &a, 0xa5));
    assert_eq!(one.answer, other.answer, "{}", what());
    let (links, opposite) = (links_of(&one.list), links_of(&other.list));
    assert_eq!(fault_of_exchange(&links, &opposite), None, "{}", what());
    let nodes = drawing.a.iter().chain(&drawing.b);
    let numbers = (0..NUMBERS).chain(nodes.step_by(3).map(|node| node.number));
    for number in numbers {
        for (master, exchanged) in [(0, 1), (1, 0), (2, 2)] {
            let spare = one.spare(master, number);
            let same = other.spare(exchanged, number);
            assert_eq!(spare, same, "master {master} number {number}, {}", what());
        }
    }
    for length in [COUNTS_BYTES, COUNTS_BYTES - 1] {
        assert_eq!(one.bands(length), other.bands(length), "{}", what());
    }
    links != opposite.iter().map(Link::exchanged).collect::<Vec<_>>()
}

#[test]
fn both_orders() {
    let plan = [
        (Size::Tiny, 20),
        (Size::Small, 20),
        (Size::Medium, 6),
        (Size::OneFull, 1),
        (Size::Full, 1),
    ];
    let (mut reordered, mut met) = (0, BTreeSet::new());
    let drawings = each_drawing(9_000_000, &plan, |seed, drawing| {
        reordered += u64::from(compare(seed, drawing));
        met.insert((drawing.family, drawing.sorts, drawing.size));
    });
    println!("drawings lent in both orders: {drawings}, rows in another order: {reordered}");
    assert!(reordered > 300);
    assert_eq!(met.len(), FAMILIES.len() * SORTS.len() * plan.len());
}
