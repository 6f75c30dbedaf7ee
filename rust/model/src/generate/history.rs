//! Histories: a drawing, and calls that follow each other on it.

use std::fmt::{Display, Formatter};

use super::drawing::{Drawing, Size};
use super::edits::{bad_edit, good_edit, unknown_number, BAD_EDITS, KINDS};
use super::lengths::{wrong_lend, wrong_length};
use super::random::Random;
use crate::engine::{Call, Lend, Request};
use crate::report::hex;
use crate::rows::{Edit, Node};
use crate::sizes::*;

/// Begins from the two tables of the drawing and their finished list.
#[derive(Clone, Debug, PartialEq, Eq)]
pub struct History {
    pub drawing: Drawing,
    pub calls: Vec<Call>,
}

impl History {
    /// So many calls of all kinds on a random drawing of this size: most will
    /// be done, the others have a wrong length or one bad argument.
    pub fn random(random: &mut Random, size: Size, calls: usize) -> History {
        let drawing = Drawing::random(random, size);
        let mut nodes = Nodes {
            a: drawing.a.clone(),
            b: drawing.b.clone(),
        };
        let calls = (0..calls)
            .map(|_| random_call(random, &mut nodes))
            .collect();
        History { drawing, calls }
    }
}

/// The nodes as the calls so far leave them, so that later edits fit them.
struct Nodes {
    a: Vec<Node>,
    b: Vec<Node>,
}

impl Nodes {
    fn master(&mut self, master: u64) -> &mut Vec<Node> {
        if master == MASTER_A {
            &mut self.a
        } else {
            &mut self.b
        }
    }

    /// Follows an edit that is known to be done.
    fn follow(&mut self, edit: &Edit) {
        let nodes = self.master(edit.master);
        if edit.kind == KIND_ARRIVAL {
            nodes.push(edit.node());
        }
        if edit.kind == KIND_DEPARTURE {
            nodes.retain(|node| node.number != edit.number);
        }
        for node in nodes.iter_mut().filter(|node| node.number == edit.number) {
            match edit.kind {
                KIND_MOVE => (node.horizontal, node.vertical) = (edit.horizontal, edit.vertical),
                KIND_CAPACITY => (node.capacity, node.sort) = (edit.capacity, edit.sort),
                _ => {}
            }
        }
    }
}

fn random_call(random: &mut Random, nodes: &mut Nodes) -> Call {
    let mut followed = None;
    let request = match random.below(20) {
        0..=1 => Request::Pair,
        2..=3 => Request::Step,
        4..=6 => spare(random, nodes),
        7..=8 => Request::Bands {
            counts: counts(random),
        },
        _ if random.once_in(4) => Request::Edit {
            edit: bad_edit_bytes(random, nodes),
        },
        _ => {
            let kind = random.pick(&KINDS);
            // Masters without nodes allow arrivals only, full ones all else.
            let edit = good_edit(random, kind, &nodes.a, &nodes.b)
                .or_else(|| good_edit(random, KIND_ARRIVAL, &nodes.a, &nodes.b))
                .unwrap_or_else(|| Edit::departure(MASTER_A, nodes.a[0].number));
            followed = Some(edit);
            Request::Edit {
                edit: edit.bytes().to_vec(),
            }
        }
    };
    let mut call = Call::whole(request);
    if random.once_in(12) {
        lend_wrongly(random, &mut call);
    } else if let Some(edit) = followed {
        nodes.follow(&edit);
    }
    call
}

/// One or more of the three buffers with a wrong length.
fn lend_wrongly(random: &mut Random, call: &mut Call) {
    let which = random.size(1, 7);
    let mut lend = |bit: usize, stated: usize| {
        if which & bit != 0 {
            wrong_lend(random, stated)
        } else {
            Lend::Whole
        }
    };
    call.a = lend(1, TABLE_BYTES);
    call.b = lend(2, TABLE_BYTES);
    call.list = lend(4, LIST_BYTES);
}

fn bad_edit_bytes(random: &mut Random, nodes: &Nodes) -> Vec<u8> {
    if random.once_in(10) {
        let length = wrong_length(random, EDIT_BYTES);
        return random.bytes(length);
    }
    let possible: Vec<Edit> = BAD_EDITS
        .iter()
        .filter_map(|bad| bad_edit(random, *bad, &nodes.a, &nodes.b))
        .collect();
    if possible.is_empty() || random.once_in(10) {
        return random.bytes(EDIT_BYTES);
    }
    random.pick(&possible).bytes().to_vec()
}

fn spare(random: &mut Random, nodes: &mut Nodes) -> Request {
    let master = random.pick(&[MASTER_A, MASTER_B]);
    let known = nodes.master(master);
    let (master, number) = match random.below(12) {
        0 => (master, 0),
        1 => (master, unknown_number(random, known)),
        2 => (
            random.pick(&[MASTER_B + 1, EDIT_MASTER.greatest()]),
            NUMBER_MIN,
        ),
        _ if known.is_empty() => (master, NUMBER_MIN),
        _ => (master, random.pick(known).number),
    };
    Request::Spare {
        master: master as MasterArgument,
        number: number as NumberArgument,
    }
}

/// A counts buffer: its old content is no matter, its length is.
fn counts(random: &mut Random) -> Vec<u8> {
    let length = match random.once_in(10) {
        true => wrong_length(random, COUNTS_BYTES),
        false => COUNTS_BYTES,
    };
    random.bytes(length)
}

/// All that is needed to repeat the history by hand, bytes in hex.
impl Display for History {
    fn fmt(&self, out: &mut Formatter<'_>) -> std::fmt::Result {
        write!(out, "{}", self.drawing)?;
        for (place, call) in self.calls.iter().enumerate() {
            write!(out, "\ncall {place}: ")?;
            match &call.request {
                Request::Edit { edit } => write!(out, "Edit {}", hex(edit))?,
                Request::Spare { master, number } => write!(out, "Spare {master} {number}")?,
                Request::Bands { counts } => write!(out, "Bands {}", hex(counts))?,
                other => write!(out, "{}", other.name())?,
            }
            for (name, lend) in [("A", &call.a), ("B", &call.b), ("list", &call.list)] {
                match lend {
                    Lend::Whole => {}
                    Lend::Cut { to } => write!(out, ", {name} cut to {to}")?,
                    Lend::Added { bytes } => write!(out, ", {name} with {}", hex(bytes))?,
                }
            }
        }
        Ok(())
    }
}
