//! The calls that are timed: what each is lent, made from a drawing.

use model::buffers::{links_of, list_row_mut};
use model::engine::{Buffers, Request};
use model::generate::places::near;
use model::generate::random::Random;
use model::rows::{Edit, Node};
use model::sizes::*;

use crate::calls::Calls;
use crate::peer::Peer;
use crate::shapes::Drawing;
use crate::sorted::Sorted;

#[derive(Clone, Copy, Debug, PartialEq, Eq)]
pub enum Call {
    Pair,
    /// From a list that has half its links.
    Step,
    /// Of a node that the drawing then has.
    Arrival,
    Departure,
    /// By some units, as a node is dragged.
    Move,
    /// One more, or from the most to the least.
    Capacity,
    Spare,
    Bands,
    /// A move whose list has a wrong amount in its middle row.
    Refused,
}

pub const CALLS: [Call; 9] = [
    Call::Pair,
    Call::Step,
    Call::Arrival,
    Call::Departure,
    Call::Move,
    Call::Capacity,
    Call::Spare,
    Call::Bands,
    Call::Refused,
];

pub const EDITS: [Call; 4] = [Call::Arrival, Call::Departure, Call::Move, Call::Capacity];

impl Call {
    pub fn name(self) -> &'static str {
        match self {
            Call::Pair => "Pair",
            Call::Step => "Step",
            Call::Arrival => "Edit, arrival",
            Call::Departure => "Edit, departure",
            Call::Move => "Edit, move",
            Call::Capacity => "Edit, capacity",
            Call::Spare => "Spare",
            Call::Bands => "Bands",
            Call::Refused => "refused list",
        }
    }

    /// The calls whose name has this text in it, in small letters.
    pub fn named(text: &str) -> Vec<Call> {
        let mut calls = CALLS.to_vec();
        calls.retain(|call| call.name().to_lowercase().contains(text));
        calls
    }
}

/// What is asked for, and the buffers as they are lent.
pub struct Case {
    pub request: Request,
    pub lent: Buffers,
}

impl Case {
    pub fn new(random: &mut Random, drawing: &Drawing, call: Call) -> Case {
        let mut drawing = drawing.clone();
        let master = random.pick(&[MASTER_A, MASTER_B]);
        let nodes = match master {
            MASTER_A => &mut drawing.a,
            _ => &mut drawing.b,
        };
        let row = random.size(0, nodes.len() - 1);
        let node = nodes[row];
        if call == Call::Arrival {
            nodes.remove(row);
        }
        let request = request(random, call, master, node);
        let (a, b) = drawing.tables();
        let mut list = vec![0; LIST_BYTES];
        Peer::<Sorted>::default().pair(&a, &b, &mut list);
        let half = links_of(&list).len() / 2;
        match call {
            Call::Step => list[half * LINK_BYTES..].fill(0),
            Call::Refused => {
                let row = list_row_mut(&mut list, half);
                let amount = LINK_AMOUNT.read(row);
                LINK_AMOUNT.write(row, amount + 1);
            }
            _ => {}
        }
        let counts = random.bytes(COUNTS_BYTES);
        let lent = Buffers { a, b, list, counts };
        Case { request, lent }
    }
}

fn request(random: &mut Random, call: Call, master: u64, node: Node) -> Request {
    let edit = match call {
        Call::Pair => return Request::Pair,
        Call::Step => return Request::Step,
        Call::Spare => {
            return Request::Spare {
                master: master as MasterArgument,
                number: node.number as NumberArgument,
            }
        }
        // The counts are among the lent buffers.
        Call::Bands => return Request::Bands { counts: Vec::new() },
        Call::Arrival => Edit::arrival(master, node),
        Call::Departure => Edit::departure(master, node.number),
        Call::Move | Call::Refused => {
            let (horizontal, vertical) = near(random, (node.horizontal, node.vertical), 20);
            Edit::moved(master, node.number, horizontal, vertical)
        }
        Call::Capacity => {
            let capacity = node.capacity % CAPACITY_MAX + 1;
            Edit::new_capacity(master, node.number, capacity).with_sort(node.sort)
        }
    };
    let edit = edit.bytes().to_vec();
    Request::Edit { edit }
}
