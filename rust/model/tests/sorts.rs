//! Sorts of nodes (document 02, P2), cases by hand.

use model::answer::answer_of;
use model::buffers::{links_of, list_of, nodes_of, table_of, table_row_mut};
use model::calls;
use model::checks::fault_of_links;
use model::engine::{Call, Engine, Model, Ran, Request};
use model::join::{join_by_copies, join_by_search, join_by_sorting};
use model::paper::{PaperCall, PaperDrawing};
use model::reader;
use model::replay::replay;
use model::rows::{Edit, Link, Node};
use model::sizes::*;

fn on(number: u64, horizontal: i64) -> Node {
    Node::new(number, horizontal, 0, 1)
}

fn off(number: u64, horizontal: i64) -> Node {
    Node::off_curve(number, horizontal, 0, 1)
}

/// The finished list, if every way there is to get it gives these links.
fn finished(a: &[Node], b: &[Node], links: &[Link]) -> Vec<u8> {
    assert_eq!(join_by_search(a, b), links, "by search");
    assert_eq!(join_by_sorting(a, b), links, "by sorting");
    assert_eq!(join_by_copies(a, b), links, "by copies");
    assert_eq!(fault_of_links(a, b, links), None);
    let mut list = vec![0xa5; LIST_BYTES];
    let answer = calls::pair(&table_of(a), &table_of(b), &mut list);
    assert_eq!(answer, links.len() as u32, "Pair");
    assert_eq!(links_of(&list), links, "Pair");
    list
}

/// The call on byte buffers, if the paper drawing answers and holds the same.
fn run(a: &[Node], b: &[Node], request: Request) -> Ran {
    let call = Call::whole(request);
    let list = list_of(&join_by_search(a, b));
    let ran = Model.run(&call, &table_of(a), &table_of(b), &list);
    let mut paper = PaperDrawing::new(a.to_vec(), b.to_vec()).expect("accepted masters");
    let on_paper = paper.call(call.lengths(), call.request.for_paper());
    assert_eq!(ran.answer, on_paper.answer(), "{:?}", call.request);
    let after = [&ran.after.a, &ran.after.b, &ran.after.list];
    assert_eq!(after, [&paper.table_a(), &paper.table_b(), &paper.list()]);
    if ran.answer >= REFUSAL_FACTOR {
        assert_eq!(ran.before, ran.after, "refused, yet a byte changed");
    }
    ran
}

fn run_edit(a: &[Node], b: &[Node], edit: Edit) -> Ran {
    let edit = edit.bytes().to_vec();
    run(a, b, Request::Edit { edit })
}

fn spare(a: &[Node], b: &[Node], master: u64, number: u64) -> u32 {
    let request = Request::Spare {
        master: master as MasterArgument,
        number: number as NumberArgument,
    };
    run(a, b, request).answer
}

fn pair_tables(a: &[u8], b: &[u8]) -> u32 {
    calls::pair(a, b, &mut vec![0; LIST_BYTES])
}

#[test]
fn rows_in_bytes() {
    let row = [0x34, 0x12, 0xff, 0xff, 2, 0, 64, 1];
    let node = Node::off_curve(0x1234, -1, 2, 64);
    assert_eq!(node.bytes(), row);
    assert_eq!(Node::read(&row), node);
    assert_eq!(node.with_sort(0), Node::new(0x1234, -1, 2, 64));
    let bytes = [4, 1, 0x34, 0x12, 0, 0, 0, 0, 64, 1];
    let edit = Edit::new_capacity(MASTER_B, 0x1234, 64).with_sort(SORT_OFF_CURVE);
    assert_eq!(edit.bytes(), bytes);
    assert_eq!(Edit::read(&bytes), edit);
    let arrival = Edit::arrival(MASTER_A, node);
    assert_eq!(arrival.node(), node);
    assert_eq!(Edit::read(&arrival.bytes()).node(), node);
}

#[test]
fn old_tables_are_on_curve() {
    // As tables were before there were sorts: a capacity of two bytes, at most 64.
    let mut table = vec![0; TABLE_BYTES];
    table_row_mut(&mut table, 0).copy_from_slice(&[1, 0, 0, 0, 0, 0, 64, 0]);
    table_row_mut(&mut table, 1).copy_from_slice(&[2, 0, 5, 0, 0, 0, 1, 0]);
    let nodes = [Node::new(1, 0, 0, 64), Node::new(2, 5, 0, 1)];
    assert_eq!(nodes_of(&table), nodes);
    assert_eq!(reader::nodes(&table), nodes);
    assert!(nodes.iter().all(|node| node.sort == SORT_ON_CURVE));
    assert_eq!(pair_tables(&table, &table), 2);
    let of_handles = table_of(&nodes.map(|node| node.with_sort(SORT_OFF_CURVE)));
    assert_eq!(pair_tables(&table, &of_handles), 0);
    assert_eq!(pair_tables(&of_handles, &of_handles), 2);
}

#[test]
fn nearer_to_a_handle_than_to_its_own_kind() {
    let a = [on(1, 0), off(2, 10)];
    let b = [off(1, 1), on(2, 8)];
    // Without sorts it would be 1, 1, 1 and 2, 2, 4.
    let links = [Link::new(1, 2, 64, 1), Link::new(2, 1, 81, 1)];
    finished(&a, &b, &links);
    let all_on = |nodes: [Node; 2]| nodes.map(|node| node.with_sort(SORT_ON_CURVE));
    let links = [Link::new(1, 1, 1, 1), Link::new(2, 2, 4, 1)];
    finished(&all_on(a), &all_on(b), &links);
    // At the same point, and yet no pair.
    finished(&[on(1, 0)], &[off(1, 0)], &[]);
}

#[test]
fn capacity_is_shared_within_a_sort_only() {
    let a = [Node::new(1, 0, 0, 3), Node::off_curve(2, 0, 0, 64)];
    let b = [
        Node::off_curve(7, 1, 0, 2),
        Node::new(8, 2, 0, 2),
        Node::new(9, 3, 0, 2),
    ];
    let links = [
        Link::new(2, 7, 1, 2),
        Link::new(1, 8, 4, 2),
        Link::new(1, 9, 9, 1),
    ];
    finished(&a, &b, &links);
    assert_eq!(spare(&a, &b, MASTER_A, 1), 0);
    assert_eq!(spare(&a, &b, MASTER_A, 2), 62);
    assert_eq!(spare(&a, &b, MASTER_B, 7), 0);
    assert_eq!(spare(&a, &b, MASTER_B, 9), 1);
}

#[test]
fn masters_of_unlike_sorts_have_no_link() {
    let a = [on(1, 0), Node::new(2, 5, 0, 9)];
    let b = [off(1, 0), Node::off_curve(2, 5, 0, 64)];
    let list = finished(&a, &b, &[]);
    assert!(list.iter().all(|byte| *byte == 0));
    assert_eq!(run(&a, &b, Request::Step).answer, 0);
    assert_eq!(spare(&a, &b, MASTER_A, 2), 9);
    assert_eq!(spare(&a, &b, MASTER_B, 2), 64);
    let counts = vec![0xa5; COUNTS_BYTES];
    let ran = run(&a, &b, Request::Bands { counts });
    assert_eq!((ran.answer, ran.after.counts), (0, vec![0; COUNTS_BYTES]));
}

#[test]
fn sorts_of_a_table_at_every_byte() {
    let sound = [on(1, 0), off(2, 3), on(3, 6), off(4, 9)];
    let good = table_of(&[on(1, 0)]);
    for row in 0..sound.len() {
        for sort in 0..=NODE_SORT.greatest() {
            let mut nodes = sound;
            nodes[row].sort = sort;
            let table = table_of(&nodes);
            let (as_a, as_b) = (pair_tables(&table, &good), pair_tables(&good, &table));
            if sort > 1 {
                assert_eq!(as_a, answer_of(2, row as u32), "sort {sort}");
                assert_eq!(as_b, answer_of(3, row as u32), "sort {sort}");
                assert_eq!(reader::nodes(&table), []);
            } else {
                assert_eq!((as_a, as_b), (1, 1), "sort {sort}");
            }
        }
    }
    // The first faulty row, and A before B.
    let bad = [on(1, 0), off(2, 3).with_sort(2), on(3, 6).with_sort(255)];
    assert_eq!(
        pair_tables(&table_of(&bad), &table_of(&bad)),
        answer_of(2, 1)
    );
    // The high byte alone in a row behind the nodes.
    let mut stray = good.clone();
    NODE_SORT.write(table_row_mut(&mut stray, 1), SORT_OFF_CURVE);
    assert_eq!(pair_tables(&good, &stray), answer_of(3, 1));
}

#[test]
fn capacities_of_a_handle() {
    for (capacity, good) in [(0, false), (1, true), (64, true), (65, false), (255, false)] {
        let handle = Node::off_curve(1, 0, 0, capacity);
        let answer = pair_tables(&table_of(&[handle]), &table_of(&[off(1, 1)]));
        let expected = if good { 1 } else { answer_of(2, 0) };
        assert_eq!(answer, expected, "capacity {capacity}");

        let a = [off(1, 0), on(2, 0)];
        for edit in [
            Edit::arrival(MASTER_A, Node::off_curve(3, 0, 0, capacity)),
            Edit::new_capacity(MASTER_A, 1, capacity).with_sort(SORT_OFF_CURVE),
            Edit::new_capacity(MASTER_A, 2, capacity).with_sort(SORT_OFF_CURVE),
        ] {
            let answer = run_edit(&a, &[], edit).answer;
            assert_eq!(answer, if good { 0 } else { answer_of(8, 0) }, "{edit:?}");
        }
    }
}

#[test]
fn sorts_of_an_edit_at_every_byte() {
    let a = [on(1, 0), off(2, 3)];
    for sort in 0..=EDIT_SORT.greatest() {
        let used = if sort > 1 { answer_of(8, 0) } else { 0 };
        let unused = if sort > 0 { answer_of(8, 0) } else { 0 };
        for number in [1, 2] {
            for (edit, answer) in [
                (Edit::arrival(MASTER_A, on(3, 0)), used),
                (Edit::departure(MASTER_A, number), unused),
                (Edit::moved(MASTER_A, number, 4, 4), unused),
                (Edit::new_capacity(MASTER_A, number, 5), used),
            ] {
                let ran = run_edit(&a, &[], edit.with_sort(sort));
                assert_eq!(ran.answer, answer, "{edit:?} sort {sort}");
            }
        }
    }
    // A sort out of range comes before a number that is not there.
    let unknown = Edit::new_capacity(MASTER_B, 9, 1);
    let answer = |edit: Edit| run_edit(&a, &[], edit).answer;
    assert_eq!(answer(unknown.with_sort(2)), answer_of(8, 0));
    assert_eq!(answer(unknown.with_sort(1)), answer_of(9, 0));
}

#[test]
fn a_node_changes_its_sort() {
    let a = [on(1, 0), on(2, 10)];
    let b = [on(1, 1), on(2, 12), off(3, 11)];
    let links = [Link::new(1, 1, 1, 1), Link::new(2, 2, 4, 1)];
    finished(&a, &b, &links);
    let after = |b: &[Node], edit: Edit| {
        let ran = run_edit(&a, b, edit);
        assert_eq!(ran.before.b, ran.after.b, "the other table");
        let nodes = nodes_of(&ran.after.a);
        (ran.answer, nodes, links_of(&ran.after.list))
    };
    let to_handle = |number, capacity| {
        let edit = Edit::new_capacity(MASTER_A, number, capacity);
        edit.with_sort(SORT_OFF_CURVE)
    };
    // It loses its link; there is no handle to take up with.
    let handle = [on(1, 0), Node::off_curve(2, 10, 0, 7)].to_vec();
    let kept = [Link::new(1, 1, 1, 1)];
    let expected = (1, handle.clone(), kept.to_vec());
    assert_eq!(after(&b[..2], to_handle(2, 7)), expected);
    // Here there is one.
    let with_handle = [kept[0], Link::new(2, 3, 1, 1)].to_vec();
    assert_eq!(after(&b, to_handle(2, 7)), (1, handle.clone(), with_handle));
    assert_eq!(spare(&handle, &b, MASTER_A, 2), 6);
    assert_eq!(spare(&handle, &b, MASTER_B, 2), 1);
    // The link of the first row goes, and B 1 stays alone.
    let first = [off(1, 0), on(2, 10)].to_vec();
    let rest = [Link::new(2, 2, 4, 1), Link::new(1, 3, 121, 1)].to_vec();
    assert_eq!(after(&b, to_handle(1, 1)), (0, first, rest));
    // The sort as it was, and the capacity too.
    let same = Edit::new_capacity(MASTER_A, 2, 1);
    assert_eq!(after(&b, same), (2, a.to_vec(), links.to_vec()));
}

#[test]
fn an_arrival_of_either_sort_and_a_move() {
    let a = [on(1, 0), off(2, 10)];
    let b = [on(1, 4), off(2, 12)];
    let links = [Link::new(2, 2, 4, 1), Link::new(1, 1, 16, 1)];
    finished(&a, &b, &links);
    // As E11: the newcomer displaces a link of its own sort only.
    let ran = run_edit(&a, &b, Edit::arrival(MASTER_A, on(3, 12)));
    assert_eq!((ran.answer, links_of(&ran.after.list)), (2, links.to_vec()));
    let ran = run_edit(&a, &b, Edit::arrival(MASTER_A, off(3, 12)));
    let displaced = [Link::new(3, 2, 0, 1), Link::new(1, 1, 16, 1)];
    assert_eq!(
        (ran.answer, links_of(&ran.after.list)),
        (0, displaced.to_vec())
    );
    // A move keeps the sort.
    let ran = run_edit(&a, &b, Edit::moved(MASTER_A, 2, 4, 0));
    assert_eq!(nodes_of(&ran.after.a), [on(1, 0), off(2, 4)]);
    let moved = [Link::new(1, 1, 16, 1), Link::new(2, 2, 64, 1)];
    assert_eq!((ran.answer, links_of(&ran.after.list)), (0, moved.to_vec()));
}

#[test]
fn replayed_with_sorts() {
    let a = table_of(&[on(1, 0), off(2, 10)]);
    let b = table_of(&[on(1, 4), off(2, 12)]);
    let change = Edit::new_capacity(MASTER_A, 2, 1);
    let edits = [change.with_sort(2), change, change.with_sort(1)];
    let input = [&a[..], &b, &edits.map(|edit| edit.bytes()).concat()].concat();
    let text = "load 2\n\
                edit 1 refused 8\n\
                edit 2 kept 0 links 1\n\
                edit 3 kept 0 links 2\n\
                link 2 2 4 1\n\
                link 1 1 16 1\n";
    assert_eq!(replay(&input), text);
    let mut faulty = input;
    NODE_SORT.write(table_row_mut(&mut faulty[TABLE_BYTES..], 1), 2);
    assert_eq!(replay(&faulty), "load refused 3 row 1\n");
}

#[test]
fn paper_sees_sorts_of_an_edit() {
    let mut paper = PaperDrawing::new(vec![on(1, 0)], vec![off(1, 0)]).expect("accepted masters");
    let lengths = Call::whole(Request::Pair).lengths();
    assert_eq!(paper.join(), []);
    let edit = Edit::new_capacity(MASTER_A, 1, 1).with_sort(SORT_OFF_CURVE);
    let edit = &edit.bytes()[..];
    assert_eq!(paper.call(lengths, PaperCall::Edit { edit }).answer(), 0);
    assert_eq!(paper.nodes_a(), [off(1, 0)]);
    assert_eq!(paper.join(), [Link::new(1, 1, 0, 1)]);
}
