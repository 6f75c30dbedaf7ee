//! One call, on the archive and on the model: the answer and every byte of the lent memory.

use std::fmt::{Display, Formatter, Result as Written};

use model::answer::number_of;
use model::buffers::nodes_of;
use model::engine::{Buffers, Call, Engine, Model, Ran, Request};
use model::generate::random::Random;
use model::report::hex;
use model::rows::Edit;
use model::sizes::KIND_CAPACITY;

use crate::lent::Lent;
use crate::tally::Tally;

/// A call and the bytes that it is lent, of any length.
#[derive(Clone)]
pub struct Case {
    pub a: Vec<u8>,
    pub b: Vec<u8>,
    pub list: Vec<u8>,
    pub request: Request,
    /// Both tables are the same lent bytes.
    pub shared: bool,
    /// Nodes of A and of B before any damage.
    pub nodes: (usize, usize),
}

pub struct Mismatch {
    case: Case,
    what: String,
}

impl Display for Mismatch {
    fn fmt(&self, out: &mut Formatter<'_>) -> Written {
        let Case {
            a,
            b,
            list,
            request,
            ..
        } = &self.case;
        writeln!(out, "{request:?}: {}", self.what)?;
        writeln!(out, "table A {}", hex(a))?;
        writeln!(out, "table B {}", hex(b))?;
        write!(out, "list {}", hex(list))
    }
}

/// Where a buffer first differs, in words.
fn difference(got: &Buffers, right: &Buffers) -> Option<String> {
    let Buffers { a, b, list, counts } = right;
    let all = [
        ("table A", &got.a, a),
        ("table B", &got.b, b),
        ("the list", &got.list, list),
        ("the counts", &got.counts, counts),
    ];
    all.into_iter().find_map(|(name, got, right)| {
        let at = (0..got.len()).find(|&at| got[at] != right[at])?;
        let (byte, other) = (got[at], right[at]);
        Some(format!(
            "byte {at} of {name} is {byte:#04x}, not {other:#04x}"
        ))
    })
}

/// Whether a node has another sort than before the call.
fn gives_another_sort(request: &Request, ran: &Ran) -> bool {
    let Request::Edit { edit } = request else {
        return false;
    };
    if number_of(ran.answer) != 0 || Edit::read(edit).kind != KIND_CAPACITY {
        return false;
    }
    let sorts = |table: &[u8]| -> Vec<u64> {
        let nodes = nodes_of(table).into_iter();
        nodes.map(|node| node.sort).collect()
    };
    let (before, after) = (&ran.before, &ran.after);
    sorts(&before.a) != sorts(&after.a) || sorts(&before.b) != sorts(&after.b)
}

/// Runs the case on both, counts it, and gives what the model left behind.
pub fn judge(
    random: &mut Random,
    case: &Case,
    tally: &mut Tally,
) -> std::result::Result<Ran, Box<Mismatch>> {
    let request = &case.request;
    let call = Call::whole(request.clone());
    let ran = Model.run(&call, &case.a, &case.b, &case.list);
    let lent = Lent::new(random, case.shared);
    let got = lent.run(&call, &case.a, &case.b, &case.list);
    let stray = lent.stray();
    if got != ran || stray.is_some() {
        let wrong = stray.or_else(|| difference(&got.after, &ran.after));
        let wrong = wrong.unwrap_or("no byte differs".to_string());
        let what = format!("answer {:#x}, not {:#x}; {wrong}", got.answer, ran.answer);
        let case = case.clone();
        return Err(Box::new(Mismatch { case, what }));
    }
    let nodes = match (request, number_of(ran.answer)) {
        // An arrival may have filled a master.
        (Request::Edit { .. }, 0) => (
            case.nodes.0.max(nodes_of(&ran.after.a).len()),
            case.nodes.1.max(nodes_of(&ran.after.b).len()),
        ),
        _ => case.nodes,
    };
    tally.count(request, number_of(ran.answer), nodes);
    if gives_another_sort(request, &ran) {
        tally.count_other_sort(nodes);
    }
    Ok(ran)
}
