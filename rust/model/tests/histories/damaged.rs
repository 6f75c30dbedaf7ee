//! Calls lent damaged copies of what a history holds. How the damage was done
//! tells the answer; where it passes, the paper drawing does.

use model::answer::{answer_of, number_of};
use model::engine::{Buffers, Call, Engine, Model, Request};
use model::generate::damage::{damage_list, damage_table_often, Difference, LIST_FAULTS};
use model::generate::random::Random;
use model::report::hex;
use model::sizes::{LINK_BYTES, LIST_BYTES};

use crate::run::Run;
use crate::Figures;

/// Runs a request of the history on damaged copies, and holds answer and
/// buffers against what they have to be.
pub fn call(run: &Run, random: &mut Random, place: usize, figures: &mut Figures) {
    let calls = &run.history.calls;
    let request = calls[random.size(0, calls.len() - 1)].request.clone();
    let (mut a, mut b, mut list) = (run.a.clone(), run.b.clone(), run.list.clone());
    let row_a = damage_perhaps(random, &mut a);
    let row_b = damage_perhaps(random, &mut b);
    let fault = random.pick(&LIST_FAULTS);
    let difference = match random.once_in(3) {
        true => None,
        false => damage_list(random, &mut list, fault),
    };

    let call = Call::whole(request.clone());
    let ran = Model.run(&call, &a, &b, &list);
    figures.tally.count(request.name(), number_of(ran.answer));
    figures.damaged_calls += 1;

    let mut paper = run.paper.clone();
    let on_paper = paper.call(call.lengths(), request.for_paper());
    let refused = refusal_of_damage(&request, row_a, row_b, difference);
    let (answer, after) = if on_paper.number == 1 {
        (answer_of(1, 0), ran.before.clone())
    } else if let Some(answer) = refused {
        (answer, ran.before.clone())
    } else if let (Request::Step, Some(difference)) = (&request, difference) {
        let list = leading_part(&run.list, difference.row + 1);
        (
            1,
            Buffers {
                list,
                ..ran.before.clone()
            },
        )
    } else {
        let after = Buffers {
            a: paper.table_a(),
            b: paper.table_b(),
            list: paper.list(),
            counts: on_paper.counts.clone().unwrap_or(ran.before.counts.clone()),
        };
        let refused = on_paper.number != 0;
        (
            on_paper.answer(),
            if refused { ran.before.clone() } else { after },
        )
    };
    if ran.answer != answer || ran.after != after {
        let what = format!(
            "damaged call {request:?}: answer {:#x}, expected {answer:#x}\n\
             lent A {}\nlent B {}\nlent list {}\nlist after {}",
            ran.answer,
            hex(&a),
            hex(&b),
            hex(&list),
            hex(&ran.after.list),
        );
        run.fail(place, &what);
    }
}

/// Damages a table one time in four; gives the first faulty row.
fn damage_perhaps(random: &mut Random, table: &mut [u8]) -> Option<usize> {
    if !random.once_in(4) {
        return None;
    }
    let faults = random.size(1, 3);
    let put = damage_table_often(random, table, faults);
    put.iter().map(|(_, row)| *row).min()
}

/// The refusal that the damage earns; none where it passes.
fn refusal_of_damage(
    request: &Request,
    row_a: Option<usize>,
    row_b: Option<usize>,
    difference: Option<Difference>,
) -> Option<u32> {
    if let Some(row) = row_a {
        return Some(answer_of(2, row as u32));
    }
    if let Some(row) = row_b {
        return Some(answer_of(3, row as u32));
    }
    let Difference {
        row,
        zero_from_there,
    } = difference?;
    match request {
        Request::Pair => None,
        _ if !zero_from_there => Some(answer_of(4, row as u32)),
        Request::Step => None,
        _ => Some(answer_of(5, row as u32)),
    }
}

/// The first so many rows of a list, then zero rows.
fn leading_part(list: &[u8], rows: usize) -> Vec<u8> {
    let mut part = list[..rows * LINK_BYTES].to_vec();
    part.resize(LIST_BYTES, 0);
    part
}
