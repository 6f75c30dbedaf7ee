//! E1 to E10 (document 01, Cases), each with its figures as they stand there.

use model::answer::answer_of;
use model::buffers::{links_of, list_of, list_row_mut, table_of};
use model::calls;
use model::checks::fault_of_links;
use model::engine::{Call, Engine, Model, Request};
use model::join::{join_by_copies, join_by_search, join_by_sorting};
use model::paper::PaperDrawing;
use model::rows::{Edit, Link, Node};
use model::sizes::*;

fn node(number: u64, horizontal: i64, vertical: i64) -> Node {
    Node::new(number, horizontal, vertical, 1)
}

fn node_of(number: u64, horizontal: i64, vertical: i64, capacity: u64) -> Node {
    Node::new(number, horizontal, vertical, capacity)
}

fn link(a: u64, b: u64, distance: u64, amount: u64) -> Link {
    Link::new(a, b, distance, amount)
}

/// Two masters and the links that document 01 gives for them.
struct Case {
    a: Vec<u8>,
    b: Vec<u8>,
    finished: Vec<u8>,
}

impl Case {
    /// Holds the links against every way there is to get them.
    fn new(a: &[Node], b: &[Node], links: &[Link]) -> Case {
        assert_eq!(join_by_search(a, b), links, "by search");
        assert_eq!(join_by_sorting(a, b), links, "by sorting");
        assert_eq!(join_by_copies(a, b), links, "by copies");
        assert_eq!(fault_of_links(a, b, links), None);
        let paper = PaperDrawing::new(a.to_vec(), b.to_vec()).expect("accepted masters");
        let case = Case {
            a: table_of(a),
            b: table_of(b),
            finished: list_of(links),
        };
        assert_eq!(paper.list(), case.finished, "on paper");

        let mut list = vec![0xa5; LIST_BYTES];
        assert_eq!(calls::pair(&case.a, &case.b, &mut list), links.len() as u32);
        assert_eq!(list, case.finished, "Pair");

        let mut list = vec![0; LIST_BYTES];
        for row in 0..links.len() {
            assert_eq!(case.step(&mut list), 1);
            assert_eq!(links_of(&list), &links[..=row], "Step {row}");
        }
        assert_eq!(case.step(&mut list), 0, "no next link");
        assert_eq!(list, case.finished, "Step");
        case
    }

    fn step(&self, list: &mut [u8]) -> u32 {
        calls::step(&self.a, &self.b, list)
    }

    fn spare(&self, master: u8, number: u16) -> u32 {
        calls::spare(&self.a, &self.b, &self.finished, master, number)
    }

    fn bands(&self) -> Vec<u64> {
        let mut counts = vec![0xa5; COUNTS_BYTES];
        let answer = calls::bands(&self.a, &self.b, &self.finished, &mut counts);
        assert_eq!(answer, 0);
        (0..BANDS).map(|k| count_field(k).read(&counts)).collect()
    }

    /// The answer of an edit on this list, which must leave all bytes if refused.
    fn edit(&self, list: &[u8], edit: Edit) -> u32 {
        let call = Call::whole(Request::Edit {
            edit: edit.bytes().to_vec(),
        });
        let ran = Model.run(&call, &self.a, &self.b, list);
        if ran.answer >= REFUSAL_FACTOR {
            assert_eq!(ran.before, ran.after, "refused, yet a byte changed");
        }
        ran.answer
    }
}

fn e7() -> Case {
    Case::new(
        &[node(1, 0, 0), node_of(2, 3, 0, 2)],
        &[node_of(1, 1, 0, 2), node(2, 7, 0)],
        &[link(1, 1, 1, 1), link(2, 1, 4, 1), link(2, 2, 16, 1)],
    )
}

#[test]
fn e1_both_empty() {
    let case = Case::new(&[], &[], &[]);
    assert!(case.finished.iter().all(|byte| *byte == 0));
    assert_eq!(case.bands(), [0; BANDS]);
}

#[test]
fn e2_one_empty() {
    let case = Case::new(&[node(1, 0, 0)], &[], &[]);
    assert_eq!(case.spare(0, 1), 1);
    let case = Case::new(&[], &[node(1, 0, 0)], &[]);
    assert_eq!(case.spare(1, 1), 1);
}

#[test]
fn e3_farthest() {
    let case = Case::new(
        &[node(1, -16384, -16384)],
        &[node(1, 16384, 16384)],
        &[link(1, 1, 2147483648, 1)],
    );
    let mut counts = [0; BANDS];
    counts[32] = 1;
    assert_eq!(case.bands(), counts);
}

#[test]
fn e4_ranges() {
    let pair = |a: Node, b: Node| {
        let mut list = vec![0; LIST_BYTES];
        calls::pair(&table_of(&[a]), &table_of(&[b]), &mut list)
    };
    let good = node(1, 0, 0);
    assert_eq!(pair(node(1, 16385, 0), good), answer_of(2, 0));
    assert_eq!(pair(node(1, -16385, 0), good), answer_of(2, 0));
    assert_eq!(pair(node(1, 0, 16385), good), answer_of(2, 0));
    assert_eq!(pair(node(1, 0, -16385), good), answer_of(2, 0));
    assert_eq!(pair(node(1, 16384, -16384), node(1, -16384, 16384)), 1);
    assert_eq!(pair(node_of(1, 0, 0, 64), good), 1);
    assert_eq!(pair(node_of(1, 0, 0, 65), good), answer_of(2, 0));
    assert_eq!(pair(node_of(1, 0, 0, 0), good), answer_of(2, 0));
    assert_eq!(pair(good, node_of(1, 0, 0, 64)), 1);
    assert_eq!(pair(good, node_of(1, 0, 0, 65)), answer_of(3, 0));
}

#[test]
fn e5_tie_by_number() {
    let (first, second) = (node(1, 0, 0), node(2, 2, 0));
    let links = [link(1, 1, 1, 1)];
    Case::new(&[first, second], &[node(1, 1, 0)], &links);
    Case::new(&[second, first], &[node(1, 1, 0)], &links);
    // The same from the other side: the smaller B number wins.
    Case::new(&[node(1, 1, 0)], &[second, first], &links);
}

#[test]
fn e6_capacities() {
    let case = Case::new(
        &[node_of(1, 0, 0, 3)],
        &[node_of(1, 0, 0, 2), node_of(2, 0, 3, 2)],
        &[link(1, 1, 0, 2), link(1, 2, 9, 1)],
    );
    assert_eq!(case.spare(1, 2), 1);
    assert_eq!(case.spare(1, 1), 0);
    assert_eq!(case.spare(0, 1), 0);
    let mut counts = [0; BANDS];
    counts[0] = 1;
    counts[4] = 1;
    assert_eq!(case.bands(), counts);
}

#[test]
fn e7_rest_of_a_partner() {
    let case = e7();
    let mut counts = [0; BANDS];
    counts[1] = 1;
    counts[3] = 1;
    counts[5] = 1;
    assert_eq!(case.bands(), counts);
}

#[test]
fn e8_list_not_finished() {
    let case = e7();
    let zero = vec![0; LIST_BYTES];
    let good = [
        Edit::arrival(MASTER_A, node(3, 5, 5)),
        Edit::departure(MASTER_A, 1),
        Edit::moved(MASTER_B, 2, 1, 1),
        Edit::new_capacity(MASTER_B, 1, 9),
    ];
    for edit in good {
        assert_eq!(case.edit(&zero, edit), answer_of(5, 0), "{edit:?}");
    }
    for kind in 0..=EDIT_KIND.greatest() {
        let edit = Edit { kind, ..good[0] };
        assert_eq!(case.edit(&zero, edit), answer_of(5, 0), "kind {kind}");
    }

    let mut stepped = zero.clone();
    assert_eq!(case.step(&mut stepped), 1);
    assert_eq!(stepped[..LINK_BYTES], case.finished[..LINK_BYTES]);
    assert_eq!(stepped[LINK_BYTES..], zero[LINK_BYTES..]);

    let mut second_only = zero;
    list_row_mut(&mut second_only, 1).copy_from_slice(&link(2, 1, 4, 1).bytes());
    let lent = second_only.clone();
    assert_eq!(case.step(&mut second_only), answer_of(4, 0));
    assert_eq!(second_only, lent);
    assert_eq!(case.edit(&lent, good[0]), answer_of(4, 0));
}

#[test]
fn e9_move_to_its_place() {
    let case = e7();
    let edit = Edit::moved(MASTER_A, 2, 3, 0);
    assert_eq!(case.edit(&case.finished, edit), 3);
    let call = Call::whole(Request::Edit {
        edit: edit.bytes().to_vec(),
    });
    let ran = Model.run(&call, &case.a, &case.b, &case.finished);
    assert_eq!(ran.before, ran.after);
}

#[test]
fn e10_full_master() {
    let full: Vec<Node> = (1..=TABLE_ROWS as u64)
        .map(|n| node(n, n as i64, 0))
        .collect();
    for (a, b, master) in [
        (&full[..], &[][..], MASTER_A),
        (&full, &[node(1, 0, 0)], MASTER_A),
        (&[node(7, 0, 0)], &full, MASTER_B),
        (&full, &full, MASTER_B),
    ] {
        let (table_a, table_b) = (table_of(a), table_of(b));
        let case = Case {
            finished: list_of(&join_by_sorting(a, b)),
            a: table_a,
            b: table_b,
        };
        let known = Edit::arrival(master, node(TABLE_ROWS as u64, 0, 0));
        let new = Edit::arrival(master, node(TABLE_ROWS as u64 + 1, 0, 0));
        assert_eq!(case.edit(&case.finished, known), answer_of(9, 0));
        assert_eq!(case.edit(&case.finished, new), answer_of(10, 0));
    }
}
