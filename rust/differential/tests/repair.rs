//! Edits that leave many nodes with more than they had: up to as many as a repair of the links keeps at a time, and one
//! more, where the links are joined anew.

mod beside;

use beside::Held;
use model::buffers::links_of;
use model::rows::{Edit, Node};
use model::sizes::*;

/// A node of this sort holds this many of the other master, and then leaves them, so that a third node gets them all.
/// Nodes of the other sort lie between them, for nobody.
fn drawing(held: u64, sort: u64) -> (Vec<Node>, Vec<Node>) {
    let node = |number, x, capacity| Node::new(number, x, 0, capacity).with_sort(sort);
    let other = |number, x| Node::new(number, x, 0, CAPACITY_MAX).with_sort(SORT_MAX - sort);
    let holders = vec![
        node(1, 0, CAPACITY_MAX),
        other(3, 100),
        node(2, 5_000, CAPACITY_MAX),
    ];
    let others = (1..=held).map(|n| node(n, n as i64, 1)).collect();
    (holders, others)
}

#[test]
fn many_nodes_with_more_than_they_had() {
    for held in 1..=CAPACITY_MAX {
        for (master, sort) in [MASTER_A, MASTER_B].map(|m| [(m, 0), (m, 1)]).concat() {
            let what = format!("{held} held, master {master}, sort {sort}");
            let (holders, others) = drawing(held, sort);
            let before = match master {
                MASTER_A => Held::new(&what, &holders, &others),
                _ => Held::new(&what, &others, &holders),
            };
            assert_eq!(links_of(&before.list).len() as u64, held);
            let other_sort = Edit::new_capacity(master, 1, CAPACITY_MAX).with_sort(SORT_MAX - sort);
            for edit in [
                Edit::moved(master, 1, POSITION_MIN, 0),
                Edit::departure(master, 1),
                other_sort,
            ] {
                let after = before.edited(&what, &edit);
                let links = links_of(&after.list);
                assert_eq!(links.len() as u64, held, "{edit:?}, {what}");
                let holder = |link: &model::rows::Link| [link.a, link.b][master as usize];
                assert!(links.iter().all(|link| holder(link) == 2), "{what}");
            }
            // There and back: those that the third node held return.
            let back = Edit::new_capacity(master, 1, CAPACITY_MAX).with_sort(sort);
            let again = before.edited(&what, &other_sort).edited(&what, &back);
            assert!(again == before, "{what}");
        }
    }
}
