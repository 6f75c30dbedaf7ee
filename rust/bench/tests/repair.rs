//! Repaired links are those of the join after the edit; where the repair gives up, or is wrong, the join decides.

mod masters;

use bench::bytes::{link_of, rows, write_from, Link};
use bench::calls::Calls;
use bench::cases::{Case, EDITS};
use bench::masters::{read, BySort, Master};
use bench::peer::{Edited, Method, Peer};
use bench::repair::{After, Repair};
use bench::same::Same;
use bench::shapes::Class;
use bench::sorted::Sorted;
use masters::Arranged;
use model::answer::number_of;
use model::buffers::table_of;
use model::engine::Request;
use model::generate::drawing::{Drawing, Size};
use model::generate::edits::{good_edit, KINDS};
use model::generate::random::Random;
use model::rows::{Edit, Node};
use model::sizes::*;

/// The list before an edit, what is edited, and the list and the tables after it, by sorting.
struct Done {
    before: Vec<u8>,
    edited: Edited,
    list: Vec<u8>,
    tables: [Vec<u8>; 2],
}

impl Done {
    fn new(a: &[Node], b: &[Node], edit: &Edit) -> Done {
        let (a, b) = (table_of(a), table_of(b));
        let mut list = vec![0; LIST_BYTES];
        Peer::<Sorted>::default().pair(&a, &b, &mut list);
        Done::with_list([a, b], list, &edit.bytes())
    }

    fn with_list(mut tables: [Vec<u8>; 2], mut list: Vec<u8>, edit: &[u8]) -> Done {
        let before = list.clone();
        let [a, b] = &mut tables;
        let answer = Peer::<Sorted>::default().edit(a, b, &mut list, edit);
        let edit = Edit::read(edit);
        assert_eq!(number_of(answer), 0, "{edit:?}");
        let (side, number) = (edit.master as usize, edit.number as u16);
        Done {
            before,
            edited: Edited { side, number },
            list,
            tables,
        }
    }

    /// The list by the repair alone; none where it gives up.
    fn repaired(&self, repair: &mut Repair) -> Option<Vec<u8>> {
        let Arranged { masters, blocks } = &Arranged::new(&self.tables);
        let mut links = vec![link_of(&[7; LINK_BYTES])];
        let after = After { masters, blocks };
        repair.repair(after, rows(&self.before), self.edited, &mut links)?;
        Some(list_by(&links))
    }

    /// The list by the whole method, from this list before the edit.
    fn by_same(&self, before: &[u8]) -> Vec<u8> {
        let (mut same, mut links) = (Same::default(), Vec::new());
        let mut masters = BySort::<Master>::default();
        for (side, table) in self.tables.iter().enumerate() {
            assert_eq!(read(&mut masters, side, table), Ok(()));
            same.arrange(&mut masters, side);
        }
        same.repair(&masters, before, self.edited, &mut links);
        list_by(&links)
    }
}

fn list_by(links: &[Link]) -> Vec<u8> {
    let mut list = vec![0xff; LIST_BYTES];
    write_from(&mut list, links, 0);
    list
}

#[test]
fn small_drawings() {
    let mut repair = Repair::default();
    let mut changed = [0; KINDS.len()];
    let mut given_up = 0;
    for seed in 0..6_000 {
        let random = &mut Random::new(seed);
        let size = random.pick(&[Size::Tiny, Size::Small, Size::Small, Size::Medium]);
        let drawing = Drawing::random(random, size);
        for (kind, changed) in KINDS.into_iter().zip(&mut changed) {
            let Some(edit) = good_edit(random, kind, &drawing.a, &drawing.b) else {
                continue;
            };
            let done = Done::new(&drawing.a, &drawing.b, &edit);
            let repaired = done.repaired(&mut repair);
            given_up += usize::from(repaired.is_none());
            assert!(
                repaired.is_none_or(|list| list == done.list),
                "{edit:?} seed {seed}\n{drawing}"
            );
            *changed += usize::from(done.list != done.before);
        }
    }
    println!("edits that change the list, by kind: {changed:?}; given up: {given_up}");
    assert!(changed.iter().all(|edits| *edits > 2_000));
    assert!(given_up < 2_400, "{given_up}");
}

/// The very edits that are timed: few of them make the repair give up.
#[test]
fn timed_edits() {
    let mut repair = Repair::default();
    let (mut edits, mut given_up) = (0, 0);
    for class in Class::groups().concat() {
        for (seed, drawing) in (0..2).zip(class.drawings()) {
            for call in EDITS {
                let Case { request, lent } = Case::new(&mut Random::new(seed), &drawing, call);
                let Request::Edit { edit } = request else {
                    panic!("{call:?} is no edit");
                };
                let done = Done::with_list([lent.a, lent.b], lent.list, &edit);
                let repaired = done.repaired(&mut repair);
                given_up += usize::from(repaired.is_none());
                assert!(
                    repaired.is_none_or(|list| list == done.list),
                    "{class:?} {seed} {call:?}"
                );
                edits += 1;
            }
        }
    }
    println!("timed edits: {edits}, given up: {given_up}");
    assert!(given_up * 10 < edits, "{given_up} of {edits}");
}

/// A node with so many partners goes away from them: all are richer at once, and it is too.
fn deserted(partners: u64) -> Done {
    let a = [Node::new(1, 0, 0, 64), Node::new(2, 9_000, 0, 64)];
    let b: Vec<Node> = (1..=partners)
        .map(|number| Node::new(number, number as i64, 0, 1))
        .collect();
    Done::new(&a, &b, &Edit::moved(MASTER_A, 1, -12_000, 0))
}

/// Sixty partners of a node that departs look along a line for others, each of which is taken just before its turn.
fn chased(others: i64) -> Done {
    let number = |n: i64| 100 + n as u64;
    let mut a = vec![Node::new(1, 0, 0, 60)];
    a.extend((0..others).map(|n| Node::new(number(n), 1_000 + 100 * n, 0, 1)));
    let mut b: Vec<Node> = (1..=60).map(|n| Node::new(n, 0, 0, 1)).collect();
    b.extend((0..others).map(|n| Node::new(number(n), 1_000 + 100 * n, 950 + 100 * n, 1)));
    Done::new(&a, &b, &Edit::departure(MASTER_A, 1))
}

#[test]
fn it_gives_up_and_the_join_decides() {
    let cases = [
        (deserted(8), true),
        (deserted(64), false),
        (deserted(4), true),
        (chased(65), false),
    ];
    for (place, (done, repairs)) in cases.iter().enumerate() {
        let repaired = done.repaired(&mut Repair::default());
        assert_eq!(repaired.is_some(), *repairs, "{place}");
        assert!(repaired.is_none_or(|list| list == done.list), "{place}");
        assert!(done.by_same(&done.before) == done.list, "{place}");
    }
}

/// From a list that was not finished the repair makes a wrong one: the check stops it.
#[test]
fn a_wrong_repair_is_not_kept() {
    let mut wrong = 0;
    for seed in 0..300 {
        let random = &mut Random::new(seed);
        let drawing = Drawing::random(random, Size::Small);
        let kind = random.pick(&KINDS);
        let Some(edit) = good_edit(random, kind, &drawing.a, &drawing.b) else {
            continue;
        };
        let mut done = Done::new(&drawing.a, &drawing.b, &edit);
        let row = rows(&done.before).count() / 2;
        done.before[row * LINK_BYTES..].fill(0);
        let repaired = done.repaired(&mut Repair::default());
        wrong += usize::from(repaired.is_some_and(|list| list != done.list));
        assert!(
            done.by_same(&done.before) == done.list,
            "{edit:?} seed {seed}"
        );
    }
    println!("wrong repairs put right: {wrong}");
    assert!(wrong > 100);
}
