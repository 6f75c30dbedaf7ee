//! The masters lent in the opposite order: the same links with their two numbers
//! exchanged, the same spare of every node, and the same counts.

use model::answer::number_of;
use model::buffers::{links_of, list_of, table_of};
use model::calls;
use model::checks::fault_of_exchange;
use model::generate::drawing::{
    each_drawing, Capacities, Drawing, Size, CAPACITIES, NUMBERS, SORTS,
};
use model::generate::edits::unknown_number;
use model::generate::places::{Family, FAMILIES};
use model::generate::random::Random;
use model::report::Tally;
use model::rows::{Link, Node};
use model::sizes::*;

/// Unlike bytes for the two ways, so that a byte left unwritten shows.
const FILLED: u8 = 0xa5;
const FILLED_OPPOSITE: u8 = 0x5a;

const MASTERS: [MasterArgument; 2] = [0, 1];
const NO_MASTERS: [MasterArgument; 2] = [2, MasterArgument::MAX];

/// The byte that names the same master in the opposite order.
fn exchanged_master(master: MasterArgument) -> MasterArgument {
    match master {
        0 => 1,
        1 => 0,
        neither => neither,
    }
}

/// Two tables in the order lent, and what Pair answers and writes for them.
struct Paired<'t> {
    a: &'t [u8],
    b: &'t [u8],
    answer: u32,
    list: Vec<u8>,
}

impl<'t> Paired<'t> {
    fn new(a: &'t [u8], b: &'t [u8], filled: u8) -> Paired<'t> {
        let mut list = vec![filled; LIST_BYTES];
        let answer = calls::pair(a, b, &mut list);
        Paired { a, b, answer, list }
    }

    fn links(&self) -> Vec<Link> {
        links_of(&self.list)
    }

    fn spare(&self, master: MasterArgument, number: u64) -> u32 {
        calls::spare(self.a, self.b, &self.list, master, number as NumberArgument)
    }

    fn bands(&self, filled: u8) -> (u32, Vec<u8>) {
        let mut counts = vec![filled; COUNTS_BYTES];
        let answer = calls::bands(self.a, self.b, &self.list, &mut counts);
        (answer, counts)
    }
}

/// What the drawings of a run have in them, so that no check holds idly.
#[derive(Debug, Default)]
struct Seen {
    /// Drawings whose rows stand in another order the opposite way.
    reordered: u64,
    /// Of these, drawings with unlike distances, where sets hide a wrong order.
    reordered_with_distances: u64,
    unlike_amounts: u64,
    /// Drawings with links of both sorts.
    both_sorts: u64,
    /// Drawings with nodes in both masters, and no two of one sort.
    apart: u64,
    one_empty: u64,
    both_empty: u64,
    /// Masters, not drawings.
    full: u64,
    links: u64,
    /// Answers of Spare that are done and not 0.
    something_left: u64,
    spare: Tally,
}

impl Seen {
    fn count(&mut self, drawing: &Drawing, links: &[Link], opposite: &[Link]) {
        let differ = |field: fn(&Link) -> u64| links.iter().any(|l| field(l) != field(&links[0]));
        let exchanged: Vec<Link> = opposite.iter().map(Link::exchanged).collect();
        let reordered = exchanged != links;
        let distances = differ(|link| link.distance);
        self.reordered += u64::from(reordered);
        self.reordered_with_distances += u64::from(reordered && distances);
        self.unlike_amounts += u64::from(differ(|link| link.amount));
        self.links += links.len() as u64;
        let sort_of = |link: &Link| drawing.a.iter().find(|node| node.number == link.a);
        let sorts = links.iter().filter_map(sort_of).map(|node| node.sort);
        self.both_sorts += u64::from(sorts.clone().min() < sorts.max());
        let no_link = links.is_empty() && !drawing.a.is_empty() && !drawing.b.is_empty();
        self.apart += u64::from(no_link);
        let sizes = [drawing.a.len(), drawing.b.len()];
        let masters_of = |size: usize| sizes.iter().filter(|s| **s == size).count() as u64;
        self.one_empty += u64::from(masters_of(0) == 1);
        self.both_empty += u64::from(masters_of(0) == 2);
        self.full += masters_of(TABLE_ROWS);
    }
}

/// Masters and numbers to ask Spare for: every so many nodes of each master,
/// numbers that neither has, and 0, in both masters; a few in no master.
fn spares(seed: u64, drawing: &Drawing, every: usize) -> Vec<(MasterArgument, u64)> {
    let mut random = Random::new(seed);
    let nodes = [&drawing.a[..], &drawing.b[..]].concat();
    let some = [&drawing.a, &drawing.b].map(|nodes| nodes.iter().step_by(every));
    let mut numbers: Vec<u64> = some.into_iter().flatten().map(|node| node.number).collect();
    numbers.extend([0, 1].map(|_| unknown_number(&mut random, &nodes)));
    numbers.push(0);
    let last = &numbers[numbers.len().saturating_sub(4)..];
    let with = |masters: [MasterArgument; 2], numbers: &[u64]| {
        let each = numbers.iter().map(|number| masters.map(|m| (m, *number)));
        each.flatten().collect::<Vec<_>>()
    };
    [with(MASTERS, &numbers), with(NO_MASTERS, last)].concat()
}

/// Holds all calls on (b, a) against those on (a, b). Spare is asked for every
/// so many nodes of each master.
fn exchange_holds(seed: u64, drawing: &Drawing, every: usize, seen: &mut Seen) {
    let what = || format!("seed {seed}\n{drawing}");
    let (a, b) = (drawing.table_a(), drawing.table_b());
    let one_way = Paired::new(&a, &b, FILLED);
    let opposite = Paired::new(&b, &a, FILLED_OPPOSITE);

    assert_eq!(one_way.answer, opposite.answer, "Pair, {}", what());
    for paired in [&one_way, &opposite] {
        let links = paired.links();
        assert_eq!(paired.answer, links.len() as u32, "Pair, {}", what());
        assert!(paired.list == list_of(&links), "Pair, {}", what());
    }
    let (links, opposite_links) = (one_way.links(), opposite.links());
    let fault = fault_of_exchange(&links, &opposite_links);
    assert_eq!(fault, None, "Pair, {}", what());
    seen.count(drawing, &links, &opposite_links);

    for (master, number) in spares(seed, drawing, every) {
        let spare = one_way.spare(master, number);
        let same = opposite.spare(exchanged_master(master), number);
        let of = || format!("Spare of master {master} number {number}, {}", what());
        assert_eq!(spare, same, "{}", of());
        let known = match master {
            0 => drawing.a.iter().any(|node| node.number == number),
            1 => drawing.b.iter().any(|node| node.number == number),
            _ => false,
        };
        assert_eq!(number_of(spare) == 0, known, "{}", of());
        seen.spare.count("Spare", number_of(spare));
        seen.something_left += u64::from(known && spare > 0);
    }

    let (bands, counts) = one_way.bands(FILLED);
    assert_eq!(bands, 0, "Bands, {}", what());
    let same = opposite.bands(FILLED_OPPOSITE);
    assert_eq!((bands, counts), same, "Bands, {}", what());
}

#[test]
fn small_drawings_exchanged() {
    let plan = [(Size::Tiny, 200), (Size::Small, 110), (Size::Medium, 2)];
    let mut seen = Seen::default();
    let drawings = each_drawing(8_000_000, &plan, |seed, drawing| {
        exchange_holds(seed, drawing, 1, &mut seen);
    });
    println!("drawings lent in both orders: {drawings}, {seen:?}");
    assert!(drawings >= 20_000);
    assert!(seen.reordered > 2_000 && seen.reordered_with_distances > 1_500);
    assert!(seen.unlike_amounts > 6_000 && seen.something_left > 60_000);
    assert!(seen.one_empty > 4_000 && seen.both_empty > 400);
    assert!(seen.both_sorts > 2_000 && seen.apart > 2_000);
    let spares = [0, 7, 8, 9].map(|number| seen.spare.times("Spare", number));
    assert!(spares.iter().all(|times| *times > 30_000));
}

#[test]
fn great_drawings_exchanged() {
    let mut plan = Vec::new();
    for (place, family) in FAMILIES.into_iter().enumerate() {
        let capacities = CAPACITIES[place % CAPACITIES.len()];
        plan.push((family, Size::OneFull, capacities, 1));
    }
    // Spare joins anew each time: of two full masters it is asked for few nodes.
    for (family, capacities) in [
        (Family::OnePoint, Capacities::Many),
        (Family::Grid, Capacities::Few),
        (Family::Clusters, Capacities::One),
        (Family::SmallRange, Capacities::Many),
    ] {
        plan.push((family, Size::Full, capacities, TABLE_ROWS / 4));
    }
    let mut seen = Seen::default();
    for (place, (family, size, capacities, every)) in plan.iter().copied().enumerate() {
        let seed = 8_500_000 + place as u64;
        let numbers = NUMBERS[place % NUMBERS.len()];
        let sorts = SORTS[place % SORTS.len()];
        let mut random = Random::new(seed);
        let drawing = Drawing::of_sorts(&mut random, family, size, capacities, numbers, sorts);
        exchange_holds(seed, &drawing, every, &mut seen);
    }
    println!(
        "great drawings lent in both orders: {}, {seen:?}",
        plan.len()
    );
    assert!(seen.reordered_with_distances > 2 && seen.full > 8);
}

/// Two links of equal distance whose order is that of their A numbers: the
/// opposite way the other one comes first.
#[test]
fn tied_rows_change_places() {
    let a = [Node::new(1, 0, 0, 3), Node::new(2, 10, 0, 1)];
    let b = [Node::new(1, 11, 0, 1), Node::new(2, 1, 0, 3)];
    let (a, b) = (table_of(&a), table_of(&b));
    let one_way = Paired::new(&a, &b, FILLED);
    let opposite = Paired::new(&b, &a, FILLED_OPPOSITE);
    let links = [Link::new(1, 2, 1, 3), Link::new(2, 1, 1, 1)];
    let opposite_links = [Link::new(1, 2, 1, 1), Link::new(2, 1, 1, 3)];
    assert_eq!(one_way.links(), links);
    assert_eq!(opposite.links(), opposite_links);
    assert_eq!(fault_of_exchange(&links, &opposite_links), None);
}

/// The same with sorts: the tied rows are of unlike sorts, and pairs between
/// them that would be nearer are none in either order.
#[test]
fn tied_rows_of_unlike_sorts_change_places() {
    let a = [Node::new(1, 0, 0, 3), Node::off_curve(2, 1, 0, 1)];
    let b = [Node::off_curve(1, 0, 0, 1), Node::new(2, 1, 0, 3)];
    let (a, b) = (table_of(&a), table_of(&b));
    let one_way = Paired::new(&a, &b, FILLED);
    let opposite = Paired::new(&b, &a, FILLED_OPPOSITE);
    let links = [Link::new(1, 2, 1, 3), Link::new(2, 1, 1, 1)];
    let opposite_links = [Link::new(1, 2, 1, 1), Link::new(2, 1, 1, 3)];
    assert_eq!(one_way.links(), links);
    assert_eq!(opposite.links(), opposite_links);
    assert_eq!(fault_of_exchange(&links, &opposite_links), None);
}

/// Two rows, in random order, of which this is true.
fn two_rows(
    random: &mut Random,
    links: &[Link],
    are: impl Fn(&Link, &Link) -> bool,
) -> Option<(usize, usize)> {
    let rows = 0..links.len();
    let pairs = rows.clone().flat_map(|r| rows.clone().map(move |s| (r, s)));
    let fit: Vec<_> = pairs
        .filter(|(r, s)| r != s && are(&links[*r], &links[*s]))
        .collect();
    (!fit.is_empty()).then(|| random.pick(&fit))
}

/// The check itself can fail: one change to the right links is seen, and rows of
/// equal distance in each other's place are no fault.
#[test]
fn wrong_exchanges_are_seen() {
    let (mut amounts, mut numbers, mut order, mut tied) = (0, 0, 0, 0);
    for seed in 8_600_000..8_602_000 {
        let mut random = Random::new(seed);
        let drawing = Drawing::random(&mut random, Size::Small);
        let (a, b) = (drawing.table_a(), drawing.table_b());
        let links = Paired::new(&a, &b, FILLED).links();
        let right = Paired::new(&b, &a, FILLED_OPPOSITE).links();
        let fault_of = |opposite: &[Link]| fault_of_exchange(&links, opposite);
        let what = |wrong: &[Link]| format!("seed {seed}\n{drawing}\n{wrong:?}");
        assert_eq!(fault_of(&right), None, "{}", what(&right));

        if let Some((r, s)) = two_rows(&mut random, &right, |x, y| x.amount != y.amount) {
            let mut wrong = right.clone();
            wrong[r].amount = right[s].amount;
            assert!(fault_of(&wrong).is_some(), "amount, {}", what(&wrong));
            amounts += 1;
        }
        if let Some(row) = right.iter().position(|link| link.a != link.b) {
            let mut wrong = right.clone();
            wrong[row] = right[row].exchanged();
            assert!(fault_of(&wrong).is_some(), "numbers, {}", what(&wrong));
            numbers += 1;
        }
        if let Some((r, s)) = two_rows(&mut random, &right, |x, y| x.distance != y.distance) {
            let mut wrong = right.clone();
            wrong.swap(r, s);
            assert!(fault_of(&wrong).is_some(), "order, {}", what(&wrong));
            order += 1;
        }
        if let Some((r, s)) = two_rows(&mut random, &right, |x, y| x.distance == y.distance) {
            let mut wrong = right.clone();
            wrong[r] = right[s];
            assert!(fault_of(&wrong).is_some(), "repeated, {}", what(&wrong));
            wrong.remove(r);
            assert!(fault_of(&wrong).is_some(), "missing, {}", what(&wrong));
            let mut other_order = right.clone();
            other_order.swap(r, s);
            let fault = fault_of(&other_order);
            assert_eq!(fault, None, "tied, {}", what(&other_order));
            tied += 1;
        }
    }
    println!("wrong amounts: {amounts}, numbers: {numbers}, order: {order}, tied rows: {tied}");
    assert!(amounts > 800 && numbers > 1_400 && order > 1_000 && tied > 700);
}
