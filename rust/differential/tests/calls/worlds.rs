//! Tiny worlds: all drawings of a few nodes on a few places, and on each of them every call and every edit of a
//! small set.

use model::buffers::{list_of, table_of};
use model::engine::Request;
use model::generate::random::Random;
use model::generate::sorts::BOTH_SORTS;
use model::join::join_by_search;
use model::rows::{Edit, Node};
use model::sizes::*;

use crate::judge::{judge, Case, Mismatch};
use crate::tally::Tally;

pub struct World {
    places: &'static [(i64, i64)],
    capacities: &'static [u64],
    sorts: &'static [u64],
    /// The most nodes of a master.
    most: usize,
    /// Whether A has its numbers in both orders, or falling only; those of B rise.
    both_orders: bool,
}

/// Three places with ties between them; three on a line, where an arrival starts a chain; and two places with nodes of
/// both sorts, which may change theirs.
pub const WORLDS: [World; 4] = [
    World {
        places: &[(0, 0), (1, 0), (0, 1)],
        capacities: &[1, 2],
        sorts: &[SORT_ON_CURVE],
        most: 2,
        both_orders: true,
    },
    World {
        places: &[(0, 0), (1, 0), (3, 0)],
        capacities: &[1],
        sorts: &[SORT_ON_CURVE],
        most: 3,
        both_orders: false,
    },
    World {
        places: &[(0, 0), (1, 0)],
        capacities: &[1, 2],
        sorts: &BOTH_SORTS,
        most: 2,
        both_orders: true,
    },
    World {
        places: &[(0, 0), (1, 0)],
        capacities: &[1],
        sorts: &BOTH_SORTS,
        most: 3,
        both_orders: false,
    },
];

/// The least number in a world; one less and one more than any are left for arrivals.
const FIRST: u64 = 2;

impl World {
    /// Every master, its rows numbered upwards from the first number.
    fn masters(&self) -> Vec<Vec<Node>> {
        let mut masters = vec![Vec::new()];
        let mut start = 0;
        for count in 0..self.most {
            let end = masters.len();
            for k in start..end {
                for node in self.nodes(FIRST + count as u64) {
                    masters.push([&masters[k][..], &[node]].concat());
                }
            }
            start = end;
        }
        masters
    }

    /// Every node of this number.
    fn nodes(&self, number: u64) -> Vec<Node> {
        let mut nodes = Vec::new();
        for (horizontal, vertical) in self.places {
            for (capacity, sort) in self.fields() {
                let node = Node::new(number, *horizontal, *vertical, capacity);
                nodes.push(node.with_sort(sort));
            }
        }
        nodes
    }

    /// Every capacity with every sort.
    fn fields(&self) -> Vec<(u64, u64)> {
        let mut fields = Vec::new();
        for capacity in self.capacities {
            fields.extend(self.sorts.iter().map(|sort| (*capacity, *sort)));
        }
        fields
    }

    /// Every A of the world.
    pub fn lights(&self) -> Vec<Vec<Node>> {
        let rising = self.masters();
        let mut falling = rising.clone();
        for nodes in &mut falling {
            let last = FIRST + FIRST + nodes.len() as u64 - 1;
            nodes
                .iter_mut()
                .for_each(|node| node.number = last - node.number);
        }
        if !self.both_orders {
            return falling;
        }
        falling.retain(|nodes| nodes.len() > 1);
        [rising, falling].concat()
    }

    /// Every edit that the masters allow: arrivals of the least and of the greatest number, and all the others.
    fn edits(&self, a: &[Node], b: &[Node]) -> Vec<Edit> {
        let mut edits = Vec::new();
        for (master, nodes) in [(MASTER_A, a), (MASTER_B, b)] {
            for number in [FIRST - 1, FIRST + self.most as u64] {
                let arrivals = self.nodes(number);
                edits.extend(arrivals.into_iter().map(|node| Edit::arrival(master, node)));
            }
            for node in nodes {
                let number = node.number;
                edits.push(Edit::departure(master, number));
                for (horizontal, vertical) in self.places {
                    edits.push(Edit::moved(master, number, *horizontal, *vertical));
                }
                for (capacity, sort) in self.fields() {
                    let edit = Edit::new_capacity(master, number, capacity);
                    edits.push(edit.with_sort(sort));
                }
            }
        }
        edits
    }

    /// Every B beside this A, every call on the two.
    pub fn run(&self, a: &[Node], tally: &mut Tally) -> Result<(), Box<Mismatch>> {
        let random = &mut Random::new(a.len() as u64);
        for b in self.masters() {
            let mut requests = vec![Request::Bands {
                counts: random.bytes(COUNTS_BYTES),
            }];
            requests.extend(spares(a, &b));
            let edits = self.edits(a, &b).into_iter();
            requests.extend(edits.map(|edit| Request::Edit {
                edit: edit.bytes().to_vec(),
            }));
            let mut case = Case {
                a: table_of(a),
                b: table_of(&b),
                list: random.bytes(LIST_BYTES),
                request: Request::Pair,
                shared: false,
                nodes: (a.len(), b.len()),
            };
            case.list = judge(random, &case, tally)?.after.list;
            assert_eq!(case.list, list_of(&join_by_search(a, &b)));
            for request in requests {
                let case = Case {
                    request,
                    ..case.clone()
                };
                judge(random, &case, tally)?;
            }
            steps(random, case, tally)?;
        }
        Ok(())
    }
}

/// Every node of both masters, a number that neither has, no number, and no master.
fn spares(a: &[Node], b: &[Node]) -> Vec<Request> {
    let mut asked = vec![(MASTER_A, 0), (MASTER_A, FIRST - 1), (MASTER_B + 1, FIRST)];
    asked.extend(a.iter().map(|node| (MASTER_A, node.number)));
    asked.extend(b.iter().map(|node| (MASTER_B, node.number)));
    let spare = |(master, number): (u64, u64)| Request::Spare {
        master: master as MasterArgument,
        number: number as NumberArgument,
    };
    asked.into_iter().map(spare).collect()
}

/// From a zero list as many steps as there are links, and then none.
fn steps(random: &mut Random, mut case: Case, tally: &mut Tally) -> Result<(), Box<Mismatch>> {
    let finished = std::mem::replace(&mut case.list, vec![0; LIST_BYTES]);
    case.request = Request::Step;
    loop {
        let ran = judge(random, &case, tally)?;
        case.list = ran.after.list;
        if ran.answer == 0 {
            assert_eq!(case.list, finished);
            return Ok(());
        }
    }
}
