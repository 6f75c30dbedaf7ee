//! One history, call by call, on the byte calls and on the paper drawing.

use model::answer::number_of;
use model::buffers::{links_of, nodes_of};
use model::checks::{fault_of_links, rows_ahead_same};
use model::engine::{Engine, Model, Ran, Request};
use model::generate::drawing::Size;
use model::generate::history::History;
use model::generate::random::Random;
use model::paper::PaperDrawing;
use model::report::hex;
use model::rows::Edit;
use model::sizes::{LIST_BYTES, MASTER_A};

use crate::Figures;

/// Blocked pairs are sought after every edit up to this many pairs times nodes.
const BLOCKED_WORK: usize = 40_000;
/// Beyond that, once in a history, up to this many.
const BLOCKED_WORK_ONCE: usize = 4_000_000;

/// What the program holds, and the paper drawing beside it.
pub struct Run {
    pub seed: u64,
    pub history: History,
    pub paper: PaperDrawing,
    pub a: Vec<u8>,
    pub b: Vec<u8>,
    pub list: Vec<u8>,
}

impl Run {
    pub fn begin(random: &mut Random, seed: u64, size: Size, calls: usize) -> Run {
        let history = History::random(random, size, calls);
        let drawing = &history.drawing;
        let paper = PaperDrawing::new(drawing.a.clone(), drawing.b.clone());
        let (a, b) = (drawing.table_a(), drawing.table_b());
        let mut list = random.bytes(LIST_BYTES);
        Model.pair(&a, &b, &mut list);
        let run = Run {
            seed,
            history,
            paper: paper.expect("accepted masters"),
            a,
            b,
            list,
        };
        run.check(run.list == run.paper.list(), 0, "the first list");
        run
    }

    /// Fails with all that is needed to repeat the failure.
    pub fn fail(&self, place: usize, what: &str) -> ! {
        panic!(
            "{what}\nat call {place}\nseed {:#x}\n{}\nheld A {}\nheld B {}\nheld list {}",
            self.seed,
            self.history,
            hex(&self.a),
            hex(&self.b),
            hex(&self.list),
        );
    }

    fn check(&self, right: bool, place: usize, what: &str) {
        if !right {
            self.fail(place, what);
        }
    }

    pub fn call(&mut self, place: usize, figures: &mut Figures) {
        let call = self.history.calls[place].clone();
        let ran = Model.run(&call, &self.a, &self.b, &self.list);
        let on_paper = self.paper.call(call.lengths(), call.request.for_paper());
        let number = number_of(ran.answer);
        figures.tally.count(call.request.name(), number);

        let what = format!(
            "answer {:#x}, on paper {:#x}",
            ran.answer,
            on_paper.answer()
        );
        self.check(ran.answer == on_paper.answer(), place, &what);
        if number != 0 {
            self.check(
                ran.before == ran.after,
                place,
                "refused, yet a byte changed",
            );
        }
        let counts = on_paper.counts.as_ref().unwrap_or(&ran.before.counts);
        self.check(ran.after.counts == *counts, place, "counts");
        if call.lends_whole() {
            self.a.clone_from(&ran.after.a);
            self.b.clone_from(&ran.after.b);
            self.list.clone_from(&ran.after.list);
        } else {
            self.check(number == 1, place, "a wrong length not refused");
        }
        self.check(self.a == self.paper.table_a(), place, "table A");
        self.check(self.b == self.paper.table_b(), place, "table B");
        self.check(self.list == self.paper.list(), place, "list");
        if let (Request::Edit { edit }, 0) = (&call.request, number) {
            self.check_edit(place, &Edit::read(edit), &ran, figures);
        }
    }

    /// The clauses on rows ahead, capacities and blocked pairs, after an edit.
    fn check_edit(&self, place: usize, edit: &Edit, ran: &Ran, figures: &mut Figures) {
        let (before, after) = (&ran.before.list, &ran.after.list);
        let same = rows_ahead_same(before, after, edit.master, edit.number);
        self.check(same, place, "rows ahead of the edited node");
        let sort_in = |a: &[u8], b: &[u8]| {
            let nodes = nodes_of(if edit.master == MASTER_A { a } else { b });
            let node = nodes.into_iter().find(|node| node.number == edit.number);
            node.map(|node| node.sort)
        };
        if let (Some(old), Some(new)) = (
            sort_in(&ran.before.a, &ran.before.b),
            sort_in(&ran.after.a, &ran.after.b),
        ) {
            figures.sorts_changed += u64::from(old != new);
            figures.links_by_sort += u64::from(old != new && before != after);
        }
        let (a, b) = (self.paper.nodes_a(), self.paper.nodes_b());
        let work = a.len() * b.len() * (a.len() + b.len());
        let last = place + 1 == self.history.calls.len() && work <= BLOCKED_WORK_ONCE;
        if work <= BLOCKED_WORK || last {
            let fault = fault_of_links(a, b, &links_of(&self.list));
            self.check(fault.is_none(), place, &format!("links: {fault:?}"));
            figures.edits_checked += 1;
        }
    }
}
