//! The join three ways, and what has to hold of it (document 01, The join; The
//! paper drawing).

use model::buffers::{links_of, list_of, list_row_mut};
use model::calls;
use model::checks::*;
use model::generate::drawing::{each_drawing, Drawing, Size, CAPACITIES, NUMBERS, SORTS};
use model::generate::places::FAMILIES;
use model::generate::random::Random;
use model::join::{form_pair, join_by_copies, join_by_search, join_by_sorting};
use model::rows::{Link, Node};
use model::sizes::*;

/// One unit at a time is slow: tried up to this many units times pairs.
const COPIES_WORK: u64 = 4_000_000;
/// Blocked pairs are sought up to this many pairs times nodes.
const BLOCKED_WORK: usize = 4_000_000;

fn copies_are_cheap(drawing: &Drawing) -> bool {
    let units = |nodes: &[Node]| nodes.iter().map(|node| node.capacity).sum::<u64>();
    let (a, b) = (units(&drawing.a), units(&drawing.b));
    a * b * a.min(b) <= COPIES_WORK
}

fn joins_agree(seed: u64, drawing: &Drawing) -> Vec<Link> {
    let (a, b) = (&drawing.a[..], &drawing.b[..]);
    let links = join_by_search(a, b);
    let what = || format!("seed {seed}\n{drawing}");
    assert_eq!(links, join_by_sorting(a, b), "by sorting, {}", what());
    if copies_are_cheap(drawing) {
        assert_eq!(links, join_by_copies(a, b), "by copies, {}", what());
    }
    links
}

#[test]
fn three_ways_agree() {
    let plan = [(Size::Tiny, 40), (Size::Small, 20), (Size::Medium, 3)];
    let mut by_copies = 0;
    let drawings = each_drawing(1_000_000, &plan, |seed, drawing| {
        let (a, b) = (&drawing.a[..], &drawing.b[..]);
        let links = joins_agree(seed, drawing);
        by_copies += u64::from(copies_are_cheap(drawing));
        if a.len() * b.len() * (a.len() + b.len()) <= BLOCKED_WORK {
            let fault = fault_of_links(a, b, &links);
            assert_eq!(fault, None, "seed {seed}\n{drawing}");
        }
    });
    println!("drawings joined two ways: {drawings}, of these three ways: {by_copies}");
    assert!(by_copies > drawings / 2);
}

#[test]
fn three_ways_agree_on_great_drawings() {
    let plan = [(Size::OneFull, 1), (Size::Any, 1)];
    let drawings = each_drawing(2_000_000, &plan, |seed, drawing| {
        let links = joins_agree(seed, drawing);
        let fault = !links_well_formed(&drawing.a, &drawing.b, &links);
        assert!(!fault, "seed {seed}\n{drawing}");
    });
    let mut full = 0;
    for family in FAMILIES {
        let seed = 3_000_000 + full;
        let mut random = Random::new(seed);
        let capacities = CAPACITIES[full as usize % CAPACITIES.len()];
        let (size, numbers) = (Size::Full, NUMBERS[0]);
        let sorts = SORTS[full as usize % SORTS.len()];
        let drawing = Drawing::of_sorts(&mut random, family, size, capacities, numbers, sorts);
        joins_agree(seed, &drawing);
        full += 1;
    }
    println!("great drawings joined two ways: {drawings}, full ones: {full}");
}

#[test]
fn most_links_are_met() {
    // Tied neighbours on a line whose capacities never run out together until
    // the last: each link empties one node only, so there are A + B - 1.
    let a: Vec<Node> = (1..=TABLE_ROWS as u64)
        .map(|n| Node::new(n, 2 * n as i64, 0, if n == 1 { 1 } else { 2 }))
        .collect();
    let b: Vec<Node> = (1..=TABLE_ROWS as u64)
        .map(|n| Node::new(n, 2 * n as i64 + 1, 0, 2))
        .collect();
    let links = join_by_sorting(&a, &b);
    assert_eq!(links.len(), LIST_ROWS);
    assert_eq!(links, join_by_search(&a, &b));
    assert!(links_well_formed(&a, &b, &links));
    assert_eq!(links_of(&list_of(&links)), links);
}

#[test]
fn rows_do_not_matter() {
    let plan = [(Size::Tiny, 10), (Size::Small, 10)];
    let drawings = each_drawing(4_000_000, &plan, |seed, drawing| {
        let links = join_by_search(&drawing.a, &drawing.b);
        let mut shuffled = drawing.clone();
        let mut random = Random::new(seed);
        random.shuffle(&mut shuffled.a);
        random.shuffle(&mut shuffled.b);
        let again = joins_agree(seed, &shuffled);
        assert_eq!(links, again, "seed {seed}\n{drawing}\nand\n{shuffled}");
    });
    println!("drawings joined with their rows shuffled: {drawings}");
}

#[test]
fn steps_from_a_zero_list() {
    let plan = [(Size::Tiny, 6), (Size::Small, 3)];
    let drawings = each_drawing(5_000_000, &plan, |seed, drawing| {
        let (a, b) = (drawing.table_a(), drawing.table_b());
        let what = || format!("seed {seed}\n{drawing}");
        let links = join_by_search(&drawing.a, &drawing.b);
        let mut list = vec![0; LIST_BYTES];
        for taken in 0..links.len() {
            assert_eq!(calls::step(&a, &b, &mut list), 1, "{}", what());
            assert!(list == list_of(&links[..=taken]), "{}", what());
        }
        assert_eq!(calls::step(&a, &b, &mut list), 0, "{}", what());
        assert!(list == list_of(&links), "{}", what());
    });
    println!("drawings finished step by step: {drawings}");
}

#[test]
fn only_the_join_has_no_blocked_pair() {
    let mut drawings = 0;
    let mut matrices = 0;
    for seed in 6_000_000..6_003_000 {
        let mut random = Random::new(seed);
        let mut drawing = Drawing::random(&mut random, Size::Tiny);
        let (most_nodes, most_capacity) = random.pick(&[(2, 5), (3, 2)]);
        drawing.a.truncate(most_nodes);
        drawing.b.truncate(most_nodes);
        for node in drawing.a.iter_mut().chain(&mut drawing.b) {
            node.capacity = node.capacity.min(random.unsigned(1, most_capacity));
        }
        let (a, b) = (&drawing.a[..], &drawing.b[..]);
        let links = joins_agree(seed, &drawing);
        let amounts = amounts_of(a, b, &links).expect("links of known nodes");
        let unblocked = all_unblocked(a, b);
        assert_eq!(unblocked, [amounts], "seed {seed}\n{drawing}");
        drawings += 1;
        matrices += tried(a, b);
    }
    println!("tiny drawings tried by force: {drawings}, matrices: {matrices}");
}

/// How many matrices the search by force goes through.
fn tried(a: &[Node], b: &[Node]) -> u64 {
    let pairs = a.iter().flat_map(|x| b.iter().map(move |y| (x, y)));
    let pairs = pairs.filter(|(x, y)| form_pair(x, y));
    pairs.map(|(x, y)| x.capacity.min(y.capacity) + 1).product()
}

/// The checks themselves can fail: one change to a right join is seen.
#[test]
fn checks_see_wrong_links() {
    let mut changed = 0;
    for seed in 7_000_000..7_002_000 {
        let mut random = Random::new(seed);
        let drawing = Drawing::random(&mut random, Size::Small);
        let (a, b) = (&drawing.a[..], &drawing.b[..]);
        let links = join_by_search(a, b);
        if links.is_empty() {
            continue;
        }
        let row = random.size(0, links.len() - 1);
        let mut less = links.clone();
        less[row].amount -= 1;
        let mut more = links.clone();
        more[row].amount += CAPACITY_MAX;
        let mut farther = links.clone();
        farther[row].distance += 1;
        let mut without = links.clone();
        without.remove(row);
        let mut twice = links.clone();
        twice.insert(row, links[row]);
        for wrong in [less, more, farther, without, twice] {
            let fault = fault_of_links(a, b, &wrong);
            assert!(fault.is_some(), "seed {seed}\n{drawing}\n{wrong:?}");
            changed += 1;
        }
        let less_one = amounts_of(a, b, &links).map(|mut amounts| {
            let i = a.iter().position(|node| node.number == links[row].a);
            let j = b.iter().position(|node| node.number == links[row].b);
            amounts[i.expect("named")][j.expect("named")] -= 1;
            amounts
        });
        let less_one = less_one.expect("links of known nodes");
        assert!(within_capacities(a, b, &less_one));
        assert!(blocked_pair(a, b, &less_one).is_some(), "seed {seed}");
    }
    println!("wrong link lists seen as wrong: {changed}");
}

#[test]
fn rows_ahead_are_told_apart() {
    let links = [
        Link::new(1, 5, 1, 1),
        Link::new(2, 6, 2, 1),
        Link::new(3, 7, 3, 1),
    ];
    let list = list_of(&links);
    let mut first_changed = list.clone();
    list_row_mut(&mut first_changed, 0)[0] = 9;
    let mut last_changed = list.clone();
    last_changed[LIST_BYTES - 1] = 1;
    for (master, number, first_is_ahead) in [
        (MASTER_A, 1, false),
        (MASTER_A, 2, true),
        (MASTER_B, 5, false),
        (MASTER_B, 6, true),
        (MASTER_B, 1, true),
        (MASTER_A, 9, false),
        (MASTER_A, 8, true),
    ] {
        assert!(rows_ahead_same(&list, &list, master, number));
        for (before, after) in [(&list, &first_changed), (&first_changed, &list)] {
            let same = rows_ahead_same(before, after, master, number);
            assert_eq!(same, !first_is_ahead, "master {master} number {number}");
        }
    }
    assert!(!rows_ahead_same(&list, &last_changed, MASTER_A, 8));
    assert!(rows_ahead_same(&list, &last_changed, MASTER_A, 3));
}
