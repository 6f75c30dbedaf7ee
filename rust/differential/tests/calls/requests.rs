//! Requests on a drawing: such as are done, and such as are refused at a wanted place.

use model::engine::Request;
use model::generate::drawing::Drawing;
use model::generate::edits::*;
use model::generate::lengths::wrong_length;
use model::generate::random::Random;
use model::rows::{Edit, Node};
use model::sizes::*;

/// Tries at an edit that not every drawing allows.
const TRIES: usize = 8;

/// A request of this call that passes every place up to this number's, and is refused there if the number is one of
/// the edit's place. If it is to arrive, an edit that passes all is an arrival.
pub fn request(
    random: &mut Random,
    drawing: &Drawing,
    call: &'static str,
    number: u32,
    arrives: bool,
) -> Option<Request> {
    Some(match call {
        "Pair" => Request::Pair,
        "Step" => Request::Step,
        "Edit" => Request::Edit {
            edit: edit_for(random, drawing, number, arrives)?,
        },
        "Spare" => spare_for(random, drawing, number)?,
        "Bands" => Request::Bands {
            counts: random.bytes(COUNTS_BYTES),
        },
        other => panic!("no request of {other}"),
    })
}

/// Gives an edit or counts a wrong length; says no if the call has no such buffer.
pub fn resize_own_buffer(random: &mut Random, request: &mut Request) -> bool {
    let (buffer, stated) = match request {
        Request::Edit { edit } => (edit, EDIT_BYTES),
        Request::Bands { counts } => (counts, COUNTS_BYTES),
        _ => return false,
    };
    buffer.resize(wrong_length(random, stated), 0);
    true
}

fn edit_for(random: &mut Random, drawing: &Drawing, number: u32, arrives: bool) -> Option<Vec<u8>> {
    let (a, b) = (&drawing.a[..], &drawing.b[..]);
    let edit = match number {
        0 => good(random, arrives, a, b),
        6..=10 => bad(random, number, a, b),
        // Refused ahead of the edit's place: most often an edit that would be done.
        _ => match random.below(4) {
            0 => return Some(random.bytes(EDIT_BYTES)),
            1 => {
                let number = random.pick(&[6, 7, 8, 9]);
                bad(random, number, a, b)
            }
            _ => good(random, arrives, a, b),
        },
    };
    Some(edit?.bytes().to_vec())
}

/// An edit that will be done, of any kind or an arrival.
fn good(random: &mut Random, arrives: bool, a: &[Node], b: &[Node]) -> Option<Edit> {
    (0..TRIES).find_map(|_| {
        let kind = match arrives {
            true => KIND_ARRIVAL,
            false => random.pick(&KINDS),
        };
        good_edit(random, kind, a, b)
    })
}

/// An edit that is refused with this number, often bad at later places too.
fn bad(random: &mut Random, number: u32, a: &[Node], b: &[Node]) -> Option<Edit> {
    if number < 9 && random.once_in(2) {
        return spoiled(random, number, a, b);
    }
    let kinds: Vec<BadEdit> = BAD_EDITS
        .into_iter()
        .filter(|bad| bad.refusal().number() == number)
        .collect();
    (0..TRIES).find_map(|_| {
        let kind = random.pick(&kinds);
        bad_edit(random, kind, a, b)
    })
}

/// An edit of a node that it may not name, or into a full master, made worse at this number's place and perhaps at
/// those between.
fn spoiled(random: &mut Random, number: u32, a: &[Node], b: &[Node]) -> Option<Edit> {
    let mut edit = (0..TRIES).find_map(|_| {
        let bad = random.pick(&[BadEdit::Presence, BadEdit::Full]);
        bad_edit(random, bad, a, b)
    })?;
    if number == 8 || random.once_in(2) {
        match random.below(5) {
            0 => edit.number = 0,
            1 => edit.horizontal = bad_position(random),
            2 => edit.vertical = bad_position(random),
            3 => edit.sort = bad_sort(random),
            _ => edit.capacity = random.pick(&[CAPACITY_MAX + 1, EDIT_CAPACITY.greatest()]),
        }
    }
    if number == 7 || (number < 7 && random.once_in(2)) {
        edit.master = random.unsigned(MASTER_B + 1, EDIT_MASTER.greatest());
    }
    if number == 6 {
        edit.kind = random.unsigned(KIND_CAPACITY + 1, EDIT_KIND.greatest());
    }
    Some(edit)
}

fn spare_for(random: &mut Random, drawing: &Drawing, number: u32) -> Option<Request> {
    let mut master = random.pick(&[MASTER_A, MASTER_B]);
    let nodes_of = |master| match master {
        MASTER_A => &drawing.a,
        _ => &drawing.b,
    };
    if number == 0 && nodes_of(master).is_empty() {
        master = MASTER_A + MASTER_B - master;
    }
    let nodes = nodes_of(master);
    let node = match number {
        8 => 0,
        9 => unknown_number(random, nodes),
        0 if nodes.is_empty() => return None,
        0 => random.pick(nodes).number,
        1..=5 if !nodes.is_empty() && random.once_in(2) => random.pick(nodes).number,
        _ => random.pick(&[0, NUMBER_MIN, NUMBER_MAX]),
    };
    if number == 7 {
        master = random.unsigned(MASTER_B + 1, EDIT_MASTER.greatest());
    }
    Some(Request::Spare {
        master: master as MasterArgument,
        number: node as NumberArgument,
    })
}
