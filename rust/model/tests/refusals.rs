//! Each refusal at each call that can give it, with its value; the order of the
//! places; and every lent byte as it was (document 01, Refused, by the place of
//! the check).

use model::answer::{answer_of, number_of};
use model::buffers::{list_of, list_row_mut, table_of, table_row_mut};
use model::engine::{Call, Engine, Lend, Model, Ran, Request};
use model::generate::edits::KINDS;
use model::join::join_by_search;
use model::report::Tally;
use model::rows::{Edit, Node};
use model::sizes::*;

/// Rows at fault, all unlike, so that a value from a wrong place shows.
const FAULTY_ROW_A: usize = 7;
const FAULTY_ROW_B: usize = 2;
const STRAY_ROW: usize = 1;
const UNFINISHED_ROW: usize = 3;

/// Buffers and arguments for one call, to be spoiled place by place.
#[derive(Clone)]
struct Setup {
    a: Vec<u8>,
    b: Vec<u8>,
    list: Vec<u8>,
    edit: Edit,
    edit_length: usize,
    counts_length: usize,
}

/// A full, B with a few nodes, and the finished list.
fn setup(kind: u64) -> Setup {
    let a: Vec<Node> = (1..=TABLE_ROWS as u64)
        .map(|n| Node::new(n, n as i64, 3, 1 + n % 2))
        .collect();
    let b: Vec<Node> = (1..=5).map(|n| Node::new(n, 10 * n as i64, 0, 3)).collect();
    let (known, unknown) = (4, TABLE_ROWS as u64 + 1);
    let edit = match kind {
        KIND_ARRIVAL => Edit::arrival(MASTER_A, Node::new(unknown, 5, 5, 1)),
        KIND_DEPARTURE => Edit::departure(MASTER_A, known),
        KIND_MOVE => Edit::moved(MASTER_A, known, 5, 5),
        _ => Edit::new_capacity(MASTER_A, known, 2),
    };
    Setup {
        list: list_of(&join_by_search(&a, &b)),
        a: table_of(&a),
        b: table_of(&b),
        edit,
        edit_length: EDIT_BYTES,
        counts_length: COUNTS_BYTES,
    }
}

impl Setup {
    /// Makes the condition of this refusal number true, whatever else is.
    fn spoil(&mut self, number: u32) {
        match number {
            1 => {
                self.list.push(0);
                self.edit_length -= 1;
                self.counts_length += 1;
            }
            2 => NODE_CAPACITY.write(table_row_mut(&mut self.a, FAULTY_ROW_A), 0),
            3 => NODE_NUMBER.write(table_row_mut(&mut self.b, FAULTY_ROW_B), 0),
            4 => list_row_mut(&mut self.list, STRAY_ROW)[0] ^= 1,
            5 => self.list[UNFINISHED_ROW * LINK_BYTES..].fill(0),
            6 => self.edit.kind = KIND_CAPACITY + 1,
            7 => self.edit.master = MASTER_B + 1,
            // Out of range where it is used, not zero where it must be.
            8 => self.edit.horizontal = POSITION_MAX + 1,
            9 if self.edit.kind == KIND_ARRIVAL => self.edit.number = 1,
            9 => self.edit.number = NUMBER_MAX,
            _ => unreachable!("no such spoiling"),
        }
    }

    fn request(&self, call: &str) -> Request {
        let (master, number) = (self.edit.master, self.edit.number);
        let mut edit = self.edit.bytes().to_vec();
        edit.truncate(self.edit_length);
        match call {
            "Pair" => Request::Pair,
            "Step" => Request::Step,
            "Edit" => Request::Edit { edit },
            "Spare" => Request::Spare {
                master: master as MasterArgument,
                number: number as NumberArgument,
            },
            _ => Request::Bands {
                counts: vec![0x5a; self.counts_length],
            },
        }
    }

    fn run(&self, call: &str) -> Ran {
        let call = Call::whole(self.request(call));
        Model.run(&call, &self.a, &self.b, &self.list)
    }
}

fn value_at(number: u32) -> u32 {
    let row = match number {
        2 => FAULTY_ROW_A,
        3 => FAULTY_ROW_B,
        4 => STRAY_ROW,
        5 => UNFINISHED_ROW,
        _ => 0,
    };
    row as u32
}

fn assert_refused(ran: &Ran, number: u32, value: u32, what: &str) {
    assert_eq!(ran.answer, answer_of(number, value), "{what}");
    assert!(ran.before == ran.after, "a byte changed: {what}");
}

/// Every set of these spoilings at once: the first place in order must be
/// given. `base` is what the call answers when nothing is spoiled.
fn try_all_sets(
    tally: &mut Tally,
    call: &'static str,
    kind: u64,
    numbers: &[u32],
    base: Option<u32>,
) {
    let good = setup(kind);
    for set in 0..1_u32 << numbers.len() {
        let chosen: Vec<u32> = (0..numbers.len())
            .filter(|bit| set >> bit & 1 == 1)
            .map(|bit| numbers[bit])
            .collect();
        let mut spoiled = good.clone();
        // Kind last, since the presence of a number is judged by the kind.
        for number in chosen.iter().rev() {
            spoiled.spoil(*number);
        }
        let ran = spoiled.run(call);
        let what = format!("{call} kind {kind} spoiled {chosen:?}");
        match chosen.first().copied().or(base) {
            Some(first) => assert_refused(&ran, first, value_at(first), &what),
            None => assert_eq!(number_of(ran.answer), 0, "{what}"),
        }
        tally.count(call, number_of(ran.answer));
    }
}

#[test]
fn order_of_the_places() {
    let mut tally = Tally::default();
    let all = [1, 2, 3, 4, 5, 6, 7, 8, 9];
    for kind in KINDS {
        // A is full, so an arrival that nothing else refuses gives 10.
        let base = (kind == KIND_ARRIVAL).then_some(10);
        try_all_sets(&mut tally, "Edit", kind, &all, base);
    }
    try_all_sets(&mut tally, "Pair", KIND_MOVE, &all[..3], None);
    try_all_sets(&mut tally, "Step", KIND_MOVE, &all[..4], None);
    try_all_sets(&mut tally, "Bands", KIND_MOVE, &all[..5], None);
    try_all_sets(&mut tally, "Spare", KIND_MOVE, &[1, 2, 3, 4, 5, 7, 9], None);
    // Number 0 is in no master; yet 8 comes before 9, and after 7.
    let mut zero = setup(KIND_MOVE);
    zero.edit.number = 0;
    assert_refused(&zero.run("Spare"), 8, 0, "Spare of number 0");
    assert_refused(&zero.run("Edit"), 8, 0, "Edit of number 0");
    tally.count("Spare", 8);
    zero.spoil(7);
    assert_refused(&zero.run("Spare"), 7, 0, "Spare of number 0, bad master");
    zero.spoil(5);
    assert_refused(&zero.run("Spare"), 5, value_at(5), "the same, unfinished");

    println!("order of the places, call by refusal number:\n{tally}");
    assert_eq!(tally.never_met(), []);
    assert_eq!(tally.not_allowed(), []);
}

#[test]
fn list_passes_where_it_is_not_checked() {
    let good = setup(KIND_MOVE);
    for spoiling in [4, 5] {
        let mut spoiled = good.clone();
        spoiled.spoil(spoiling);
        let ran = spoiled.run("Pair");
        assert_eq!(number_of(ran.answer), 0);
        assert_eq!(ran.after.list, good.list, "Pair ignores the old list");
    }
    let mut unfinished = good.clone();
    unfinished.spoil(5);
    let ran = unfinished.run("Step");
    assert_eq!(ran.answer, 1, "Step takes a leading part");
    let next = (UNFINISHED_ROW + 1) * LINK_BYTES;
    assert_eq!(ran.after.list[..next], good.list[..next]);
    assert!(ran.after.list[next..].iter().all(|byte| *byte == 0));
}

#[test]
fn every_wrong_length_of_every_buffer() {
    let good = setup(KIND_MOVE);
    let wrong = |stated: usize| [0, stated - 1, stated + 1, stated / 2, 2 * stated];
    let lend = |length: usize, stated: usize| match length.checked_sub(stated) {
        None => Lend::Cut { to: length },
        Some(added) => Lend::Added {
            bytes: vec![0; added],
        },
    };
    for name in ["Pair", "Step", "Edit", "Spare", "Bands"] {
        let whole = Call::whole(good.request(name));
        let mut calls = Vec::new();
        for length in wrong(TABLE_BYTES) {
            let lend = lend(length, TABLE_BYTES);
            calls.push(Call {
                a: lend.clone(),
                ..whole.clone()
            });
            calls.push(Call {
                b: lend,
                ..whole.clone()
            });
        }
        for length in wrong(LIST_BYTES) {
            let lend = lend(length, LIST_BYTES);
            calls.push(Call {
                list: lend,
                ..whole.clone()
            });
        }
        if name == "Edit" {
            for length in wrong(EDIT_BYTES) {
                let edit = vec![1; length];
                calls.push(Call::whole(Request::Edit { edit }));
            }
        }
        if name == "Bands" {
            for length in wrong(COUNTS_BYTES) {
                let counts = vec![0x5a; length];
                calls.push(Call::whole(Request::Bands { counts }));
            }
        }
        for call in calls {
            let ran = Model.run(&call, &good.a, &good.b, &good.list);
            assert_refused(&ran, 1, 0, &format!("{name} with {:?}", call.lengths()));
        }
    }
}
