//! The paper drawing (document 01, The paper drawing; document 02, P2).
//!
//! Its state is two ordered lists of nodes and nothing more. A call reaches it
//! as lengths and as [`PaperCall`]: no type here can carry a lent table, a lent
//! list, or an answer of the program.

use crate::answer::answer_of;
use crate::buffers::{first_faulty_row, list_of, table_of};
use crate::join::join_by_search;
use crate::rows::{capacity_in_range, position_in_range, sort_in_range, Edit, Link, Node};
use crate::sizes::*;

/// Lengths of the two tables and the list as lent.
#[derive(Clone, Copy, Debug, PartialEq, Eq)]
pub struct Lengths {
    pub a: usize,
    pub b: usize,
    pub list: usize,
}

/// A call's kind, and its arguments other than the tables and the list.
#[derive(Clone, Copy, Debug, PartialEq, Eq)]
pub enum PaperCall<'c> {
    Pair,
    Step,
    Edit {
        edit: &'c [u8],
    },
    Spare {
        master: MasterArgument,
        number: NumberArgument,
    },
    Bands {
        counts_length: usize,
    },
}

#[derive(Clone, Debug, PartialEq, Eq)]
pub struct PaperAnswer {
    pub number: u32,
    pub value: u32,
    /// The bytes of the counts, after a Bands that is done.
    pub counts: Option<Vec<u8>>,
}

impl PaperAnswer {
    /// Number and value as the one number that a call answers.
    pub fn answer(&self) -> u32 {
        answer_of(self.number, self.value)
    }
}

#[derive(Clone, Debug, PartialEq, Eq)]
pub struct PaperDrawing {
    a: Vec<Node>,
    b: Vec<Node>,
}

impl PaperDrawing {
    /// Begins from the nodes of two accepted tables, in row order; none if the
    /// nodes could not stand in accepted tables.
    pub fn new(a: Vec<Node>, b: Vec<Node>) -> Option<PaperDrawing> {
        let accepted = |nodes: &[Node]| {
            nodes.len() <= TABLE_ROWS
                && nodes.iter().all(|node| node.number != 0)
                && first_faulty_row(&table_of(nodes)).is_none()
        };
        if accepted(&a) && accepted(&b) {
            Some(PaperDrawing { a, b })
        } else {
            None
        }
    }

    pub fn nodes_a(&self) -> &[Node] {
        &self.a
    }

    pub fn nodes_b(&self) -> &[Node] {
        &self.b
    }

    pub fn table_a(&self) -> Vec<u8> {
        table_of(&self.a)
    }

    pub fn table_b(&self) -> Vec<u8> {
        table_of(&self.b)
    }

    pub fn list(&self) -> Vec<u8> {
        list_of(&self.join())
    }

    /// The join of the nodes, worked out anew each time.
    pub fn join(&self) -> Vec<Link> {
        join_by_search(&self.a, &self.b)
    }

    /// Takes one call of a history.
    pub fn call(&mut self, lengths: Lengths, call: PaperCall<'_>) -> PaperAnswer {
        if let Some(number) = self.refusal(lengths, call) {
            return PaperAnswer {
                number,
                value: 0,
                counts: None,
            };
        }
        let mut counts = None;
        let value = match call {
            PaperCall::Pair => self.join().len() as u64,
            PaperCall::Step => 0,
            PaperCall::Edit { edit } => self.edit(&Edit::read(edit)),
            PaperCall::Spare { master, number } => self.spare(u64::from(master), u64::from(number)),
            PaperCall::Bands { .. } => {
                counts = Some(self.counts());
                0
            }
        };
        PaperAnswer {
            number: 0,
            value: value as u32,
            counts,
        }
    }

    /// The number of the first refusal that fits. Its tables have no faulty row
    /// and its list is finished, so 2 to 5 never fit, and the value is 0 always.
    fn refusal(&self, lengths: Lengths, call: PaperCall<'_>) -> Option<u32> {
        let own_length = match call {
            PaperCall::Edit { edit } => edit.len() == EDIT_BYTES,
            PaperCall::Bands { counts_length } => counts_length == COUNTS_BYTES,
            _ => true,
        };
        let stated = Lengths {
            a: TABLE_BYTES,
            b: TABLE_BYTES,
            list: LIST_BYTES,
        };
        if lengths != stated || !own_length {
            return Some(1);
        }
        match call {
            PaperCall::Edit { edit } => self.edit_refusal(&Edit::read(edit)),
            PaperCall::Spare { master, number } => {
                self.spare_refusal(u64::from(master), u64::from(number))
            }
            _ => None,
        }
    }

    fn edit_refusal(&self, edit: &Edit) -> Option<u32> {
        let uses_positions = edit.kind == KIND_ARRIVAL || edit.kind == KIND_MOVE;
        let uses_capacity = edit.kind == KIND_ARRIVAL || edit.kind == KIND_CAPACITY;
        let position_fits = |position: i64| {
            if uses_positions {
                position_in_range(position)
            } else {
                position == 0
            }
        };
        let capacity_fits = if uses_capacity {
            capacity_in_range(edit.capacity)
        } else {
            edit.capacity == 0
        };
        // The sort is the other byte of the capacity field.
        let sort_fits = if uses_capacity {
            sort_in_range(edit.sort)
        } else {
            edit.sort == 0
        };

        if !(KIND_ARRIVAL..=KIND_CAPACITY).contains(&edit.kind) {
            return Some(6);
        }
        let Some(nodes) = self.master(edit.master) else {
            return Some(7);
        };
        if edit.number == 0
            || !position_fits(edit.horizontal)
            || !position_fits(edit.vertical)
            || !capacity_fits
            || !sort_fits
        {
            return Some(8);
        }
        let known = find(nodes, edit.number).is_some();
        let arrives = edit.kind == KIND_ARRIVAL;
        if known == arrives {
            return Some(9);
        }
        if arrives && nodes.len() == TABLE_ROWS {
            return Some(10);
        }
        None
    }

    fn spare_refusal(&self, master: u64, number: u64) -> Option<u32> {
        let Some(nodes) = self.master(master) else {
            return Some(7);
        };
        if number == 0 {
            return Some(8);
        }
        if find(nodes, number).is_none() {
            return Some(9);
        }
        None
    }

    fn master(&self, master: u64) -> Option<&[Node]> {
        match master {
            MASTER_A => Some(&self.a),
            MASTER_B => Some(&self.b),
            _ => None,
        }
    }

    /// Changes the nodes; gives how many leading links both joins have.
    fn edit(&mut self, edit: &Edit) -> u64 {
        let before = self.join();
        let nodes = if edit.master == MASTER_A {
            &mut self.a
        } else {
            &mut self.b
        };
        match edit.kind {
            KIND_ARRIVAL => nodes.push(edit.node()),
            KIND_DEPARTURE => nodes.retain(|node| node.number != edit.number),
            _ => {
                for node in nodes.iter_mut().filter(|node| node.number == edit.number) {
                    if edit.kind == KIND_MOVE {
                        node.horizontal = edit.horizontal;
                        node.vertical = edit.vertical;
                    } else {
                        node.capacity = edit.capacity;
                        node.sort = edit.sort;
                    }
                }
            }
        }
        let after = self.join();
        let both = before.iter().zip(&after);
        both.take_while(|(old, new)| old == new).count() as u64
    }

    /// The capacity of a known node less its amounts in the join.
    fn spare(&self, master: u64, number: u64) -> u64 {
        let nodes = self.master(master).unwrap_or_default();
        let capacity = find(nodes, number).map_or(0, |node| node.capacity);
        let links = self.join();
        let of_node = links.iter().filter(|link| match master {
            MASTER_A => link.a == number,
            _ => link.b == number,
        });
        capacity - of_node.map(|link| link.amount).sum::<u64>()
    }

    fn counts(&self) -> Vec<u8> {
        let mut counts = [0; BANDS];
        for link in self.join() {
            let mut digits = 0;
            let mut rest = link.distance;
            while rest > 0 {
                rest /= 2;
                digits += 1;
            }
            counts[digits] += 1;
        }
        let mut bytes = vec![0; COUNTS_BYTES];
        for (k, count) in counts.into_iter().enumerate() {
            count_field(k).write(&mut bytes, count);
        }
        bytes
    }
}

fn find(nodes: &[Node], number: u64) -> Option<&Node> {
    nodes.iter().find(|node| node.number == number)
}
