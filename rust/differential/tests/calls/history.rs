//! Histories: calls that follow each other on one drawing, done and refused ones, and lists that are not finished.

use model::buffers::links_of;
use model::engine::{Call, Request};
use model::generate::drawing::Size;
use model::generate::history::History;
use model::generate::random::Random;
use model::sizes::{LINK_BYTES, LIST_BYTES};

use crate::judge::{judge, Case, Mismatch};
use crate::tally::Tally;

/// The most rows that are taken off a list, to be stepped back.
const ROWS_OFF: usize = 12;

/// What the editor holds.
struct Held {
    a: Vec<u8>,
    b: Vec<u8>,
    list: Vec<u8>,
    nodes: (usize, usize),
}

impl Held {
    /// Runs a call on what is held; what it leaves is held from then on. Gives the answer.
    fn call(
        &mut self,
        random: &mut Random,
        call: &Call,
        tally: &mut Tally,
    ) -> Result<u32, Box<Mismatch>> {
        let case = Case {
            a: call.a.of(&self.a),
            b: call.b.of(&self.b),
            list: call.list.of(&self.list),
            request: call.request.clone(),
            shared: false,
            nodes: self.nodes,
        };
        let ran = judge(random, &case, tally)?;
        if call.lends_whole() {
            (self.a, self.b, self.list) = (ran.after.a, ran.after.b, ran.after.list);
            self.nodes = (count(&self.a), count(&self.b));
        }
        Ok(ran.answer)
    }

    /// Takes rows off the end of the list and steps until it is finished, with other calls in between.
    fn finish_again(
        &mut self,
        random: &mut Random,
        calls: &[Call],
        tally: &mut Tally,
    ) -> Result<(), Box<Mismatch>> {
        let links = links_of(&self.list).len();
        let off = random.size(0, links.min(ROWS_OFF));
        self.list[(links - off) * LINK_BYTES..].fill(0);
        loop {
            if random.once_in(4) {
                let call = &calls[random.size(0, calls.len() - 1)];
                self.call(random, call, tally)?;
            }
            if self.call(random, &Call::whole(Request::Step), tally)? == 0 {
                return Ok(());
            }
        }
    }
}

fn count(table: &[u8]) -> usize {
    model::buffers::nodes_of(table).len()
}

pub fn run(
    random: &mut Random,
    size: Size,
    calls: usize,
    tally: &mut Tally,
) -> Result<(), Box<Mismatch>> {
    let History { drawing, calls } = History::random(random, size, calls);
    let mut held = Held {
        a: drawing.table_a(),
        b: drawing.table_b(),
        list: random.bytes(LIST_BYTES),
        nodes: (drawing.a.len(), drawing.b.len()),
    };
    held.call(random, &Call::whole(Request::Pair), tally)?;
    for call in &calls {
        held.call(random, call, tally)?;
        if random.once_in(20) {
            held.finish_again(random, &calls, tally)?;
        }
    }
    Ok(())
}
