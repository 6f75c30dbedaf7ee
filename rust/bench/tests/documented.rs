//! E1 to E10 (document 01, Cases) by both peers, with the figures that stand there.

mod support;

use model::answer::answer_of;
use model::buffers::{list_of, table_of};
use model::engine::{Buffers, Request};
use model::rows::{Edit, Link, Node};
use model::sizes::*;
use support::Peers;

fn node(number: u64, horizontal: i64, vertical: i64, capacity: u64) -> Node {
    Node::new(number, horizontal, vertical, capacity)
}

struct Case {
    peers: Peers,
    lent: Buffers,
}

impl Case {
    /// Its finished list, by Pair and step by step.
    fn new(a: &[Node], b: &[Node], links: &[Link]) -> Case {
        let lent = Buffers {
            a: table_of(a),
            b: table_of(b),
            list: vec![0; LIST_BYTES],
            counts: vec![9; COUNTS_BYTES],
        };
        let peers = Peers::default();
        let mut case = Case { peers, lent };
        let finished = list_of(links);
        let (answer, left) = case.peers.run("Pair", &Request::Pair, &case.lent);
        assert_eq!((answer, &left.list), (links.len() as u32, &finished));
        for _ in links {
            assert_eq!(case.ask(&Request::Step), 1);
        }
        assert_eq!(case.ask(&Request::Step), 0);
        assert_eq!(case.lent.list, finished);
        case
    }

    /// The answer; what the call left is lent to the next one.
    fn ask(&mut self, request: &Request) -> u32 {
        let (answer, left) = self.peers.run("case", request, &self.lent);
        self.lent = left;
        answer
    }

    fn spare(&mut self, master: u64, number: u16) -> u32 {
        let master = master as MasterArgument;
        self.ask(&Request::Spare { master, number })
    }

    fn edit(&mut self, edit: Edit) -> u32 {
        let edit = edit.bytes().to_vec();
        self.ask(&Request::Edit { edit })
    }
}

#[test]
fn e1_e2_nothing_to_pair() {
    Case::new(&[], &[], &[]);
    let mut e2 = Case::new(&[node(1, 0, 0, 1)], &[], &[]);
    assert_eq!(e2.spare(MASTER_A, 1), 1);
}

#[test]
fn e3_farthest() {
    let (a, b) = (node(1, -16384, -16384, 1), node(1, 16384, 16384, 1));
    let mut e3 = Case::new(&[a], &[b], &[Link::new(1, 1, 2_147_483_648, 1)]);
    assert_eq!(e3.ask(&Request::Bands { counts: Vec::new() }), 0);
    let mut counts = vec![0; COUNTS_BYTES];
    counts[2 * 32] = 1;
    assert_eq!(e3.lent.counts, counts);
}

#[test]
fn e4_faulty_rows() {
    let mut e4 = Case::new(&[node(1, 0, 0, 64)], &[], &[]);
    for bad in [node(1, 16385, 0, 1), node(1, 0, 0, 65)] {
        e4.lent.a = table_of(&[bad]);
        assert_eq!(e4.ask(&Request::Pair), answer_of(2, 0));
    }
}

#[test]
fn e5_e6_ties_and_capacities() {
    let (one, two) = (node(1, 0, 0, 1), node(2, 2, 0, 1));
    for a in [[one, two], [two, one]] {
        Case::new(&a, &[node(1, 1, 0, 1)], &[Link::new(1, 1, 1, 1)]);
    }
    let b = [node(1, 0, 0, 2), node(2, 0, 3, 2)];
    let links = [Link::new(1, 1, 0, 2), Link::new(1, 2, 9, 1)];
    let mut e6 = Case::new(&[node(1, 0, 0, 3)], &b, &links);
    assert_eq!(e6.spare(MASTER_B, 2), 1);
}

#[test]
fn e7_to_e9_edits() {
    let a = [node(1, 0, 0, 1), node(2, 3, 0, 2)];
    let b = [node(1, 1, 0, 2), node(2, 7, 0, 1)];
    let links = [(1, 1, 1, 1), (2, 1, 4, 1), (2, 2, 16, 1)];
    let links = links.map(|(a, b, distance, amount)| Link::new(a, b, distance, amount));
    let mut e7 = Case::new(&a, &b, &links);
    let finished = e7.lent.list.clone();
    let still = Edit::moved(MASTER_A, 2, 3, 0);
    assert_eq!(e7.edit(still), 3, "E9");

    let edits = [
        Edit::arrival(MASTER_A, node(3, 0, 0, 1)),
        Edit::departure(MASTER_A, 1),
        still,
        Edit::new_capacity(MASTER_B, 1, 9),
    ];
    e7.lent.list.fill(0);
    for edit in edits {
        assert_eq!(e7.edit(edit), answer_of(5, 0), "E8");
    }
    assert_eq!(e7.ask(&Request::Step), 1);
    e7.lent.list = finished;
    e7.lent.list[..LINK_BYTES].fill(0);
    assert_eq!(e7.edit(still), answer_of(4, 0), "E8");
}

#[test]
fn e10_full_master() {
    let full: Vec<Node> = (1..=512).map(|number| node(number, 0, 0, 1)).collect();
    let mut e10 = Case::new(&full, &[], &[]);
    let arrival = |number| Edit::arrival(MASTER_A, node(number, 0, 0, 1));
    assert_eq!(e10.edit(arrival(7)), answer_of(9, 0));
    assert_eq!(e10.edit(arrival(513)), answer_of(10, 0));
}
