//! The check without a join says yes to finished lists, so that it is what is timed, and to no other.

mod masters;

use bench::bytes::rows;
use bench::calls::Calls;
use bench::check::Check;
use bench::peer::Peer;
use bench::shapes::{Class, Count};
use bench::sorted::Sorted;
use masters::Arranged;
use model::buffers::{links_of, list_of, table_of};
use model::generate::damage::{damage_list, LIST_FAULTS};
use model::generate::drawing::{Drawing, Size};
use model::generate::edits::{good_edit, KINDS};
use model::generate::random::Random;
use model::join::join_by_sorting;
use model::rows::Node;
use model::sizes::{LINK_BYTES, LIST_ROWS};

fn says_yes(a: &[Node], b: &[Node], list: &[u8]) -> bool {
    let Arranged { masters, blocks } = Arranged::new(&[a, b].map(table_of));
    Check::default().is_finished(&masters, &blocks, list)
}

#[test]
fn yes_to_timed_lists() {
    let mut lists = 0;
    for class in Class::groups().concat() {
        if matches!(class.count, Count::Each(256..)) {
            continue;
        }
        for drawing in class.drawings() {
            let list = list_of(&join_by_sorting(&drawing.a, &drawing.b));
            assert!(says_yes(&drawing.a, &drawing.b, &list), "{class:?}");
            lists += 1;
        }
    }
    println!("finished lists of timed drawings that pass the check: {lists}");
}

#[test]
fn yes_to_no_other() {
    let (mut passed, mut stopped) = (0, 0);
    for seed in 0..2_000 {
        let random = &mut Random::new(seed);
        let size = random.pick(&[Size::Tiny, Size::Small, Size::Small, Size::Medium]);
        let drawing = Drawing::random(random, size);
        let list = list_of(&join_by_sorting(&drawing.a, &drawing.b));
        assert!(says_yes(&drawing.a, &drawing.b, &list), "seed {seed}");
        passed += 1;
        for fault in LIST_FAULTS {
            let mut damaged = list.clone();
            if damage_list(random, &mut damaged, fault).is_some() {
                let yes = says_yes(&drawing.a, &drawing.b, &damaged);
                assert!(!yes, "{fault:?} seed {seed}\n{drawing}");
                stopped += 1;
            }
        }
    }
    println!("lists that pass the check: {passed}, that do not: {stopped}");
    assert!(stopped > 10_000);
}

/// The list as it would be without a node: every row is right of itself, and only the pass over all pairs tells.
#[test]
fn no_where_a_pair_is_open() {
    let mut open = 0;
    for seed in 0..1_000 {
        let random = &mut Random::new(seed);
        let size = random.pick(&[Size::Tiny, Size::Small, Size::Medium]);
        let drawing = Drawing::random(random, size);
        let links = join_by_sorting(&drawing.a, &drawing.b);
        for (end, nodes) in [(0, &drawing.a), (1, &drawing.b)] {
            for node in nodes {
                let linked = |link: &&model::rows::Link| [link.a, link.b][end] == node.number;
                if !links.iter().any(|link| linked(&link)) {
                    continue;
                }
                let without = |nodes: &[Node], master: usize| -> Vec<Node> {
                    let mut nodes = nodes.to_vec();
                    nodes.retain(|other| master != end || other.number != node.number);
                    nodes
                };
                let others = [without(&drawing.a, 0), without(&drawing.b, 1)];
                let list = list_of(&join_by_sorting(&others[0], &others[1]));
                let yes = says_yes(&drawing.a, &drawing.b, &list);
                assert!(!yes, "without {node:?}, seed {seed}\n{drawing}");
                open += 1;
            }
        }
    }
    println!("lists with an open pair: {open}");
    assert!(open > 5_000);
}

/// Ties: among links of one length the pass has to go by numbers.
#[test]
fn ties_are_settled_by_number() {
    let node = |number, capacity| Node::new(number, 0, 0, capacity);
    let a = [node(5, 1), node(3, 1)];
    let b = [node(9, 1), node(2, 1)];
    let list = list_of(&join_by_sorting(&a, &b));
    assert!(says_yes(&a, &b, &list));
    let crossed = [(3, 9), (5, 2)].map(|(a, b)| model::rows::Link::new(a, b, 0, 1));
    assert!(!says_yes(&a, &b, &list_of(&crossed)));
}

#[test]
fn no_to_bytes_behind_the_links() {
    let a = [Node::new(1, 0, 0, 1)];
    let mut list = list_of(&join_by_sorting(&a, &a));
    assert_eq!(links_of(&list).len(), 1);
    list[(LIST_ROWS - 1) * LINK_BYTES] = 1;
    assert!(!says_yes(&a, &a, &list));
}

/// After an edit the check looks at later nodes alone: it says yes to the new list, and to no other.
#[test]
fn again_after_an_edit() {
    let (mut yes, mut no) = (0, 0);
    for seed in 0..3_000 {
        let random = &mut Random::new(seed);
        let size = random.pick(&[Size::Tiny, Size::Small, Size::Medium]);
        let drawing = Drawing::random(random, size);
        let kind = random.pick(&KINDS);
        let Some(edit) = good_edit(random, kind, &drawing.a, &drawing.b) else {
            continue;
        };
        let before = list_of(&join_by_sorting(&drawing.a, &drawing.b));
        let mut tables = [&drawing.a, &drawing.b].map(|nodes| table_of(nodes));
        let mut after = before.clone();
        let old = Arranged::new(&tables);
        let [a, b] = &mut tables;
        Peer::<Sorted>::default().edit(a, b, &mut after, &edit.bytes());
        let new = Arranged::new(&tables);
        let again = |list: &[u8]| {
            let mut check = Check::default();
            assert!(check.is_finished(&old.masters, &old.blocks, &before));
            check.is_join_again(&new.masters, &new.blocks, rows(list))
        };
        assert!(again(&after), "{edit:?} seed {seed}\n{drawing}");
        yes += 1;
        if before != after {
            assert!(!again(&before), "{edit:?} seed {seed}\n{drawing}");
            no += 1;
        }
        for fault in LIST_FAULTS {
            let mut damaged = after.clone();
            damage_list(random, &mut damaged, fault);
            let right = rows(&damaged).eq(rows(&after));
            assert_eq!(again(&damaged), right, "{fault:?} seed {seed}\n{drawing}");
            no += usize::from(!right);
        }
    }
    println!("lists after an edit that pass the check: {yes}, that do not: {no}");
    assert!(yes > 2_000 && no > 10_000);
}
