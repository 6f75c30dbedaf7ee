//! A run fails where an answer or a byte differs, whoever is wrong.

use bench::calls::Caller;
use bench::cases::{Call, CALLS};
use bench::measure::Bench;
use bench::peer::Peer;
use bench::same::Same;
use bench::shapes::{Class, Count, Shape};
use bench::sorted::Sorted;
use differential::Archive;
use model::engine::{Buffers, Request};
use model::generate::drawing::{Capacities, Sorts};

/// Right but for one thing that it does after each call.
struct Wrong {
    peer: Peer<Same>,
    slip: fn(&mut u32, &mut Buffers),
}

impl Caller for Wrong {
    fn run(&mut self, request: &Request, lent: &mut Buffers) -> u32 {
        let mut answer = self.peer.run(request, lent);
        (self.slip)(&mut answer, lent);
        answer
    }
}

const SLIPS: [fn(&mut u32, &mut Buffers); 5] = [
    |answer, _| *answer += 1,
    |_, lent| lent.a[0] ^= 1,
    |_, lent| *lent.b.last_mut().unwrap() ^= 1,
    |_, lent| lent.list[10_229] ^= 128,
    |_, lent| lent.counts[65] ^= 1,
];

const CLASS: Class = Class {
    shape: Shape::Uniform,
    count: Count::Each(20),
    capacities: Capacities::Few,
    sorts: Sorts::Mixed,
};

fn measure(bench: &mut Bench, call: Call) -> Result<(), String> {
    let lines = bench.measure(&[CLASS], call)?;
    assert_eq!(lines.len(), 1);
    let line = lines[0];
    assert!(line.engine > 0.0 && line.same > 0.0 && line.plain > 0.0);
    assert!(line.engine_worst >= line.engine);
    Ok(())
}

#[test]
fn the_three_agree() {
    for call in CALLS {
        assert_eq!(measure(&mut Bench::default(), call), Ok(()));
    }
}

#[test]
fn a_slip_ends_the_run() {
    for slip in SLIPS {
        for place in 0..3 {
            let right = || -> Box<dyn Caller> { Box::new(Peer::<Sorted>::default()) };
            let mut callers: [Box<dyn Caller>; 3] = [Box::new(Archive), right(), right()];
            callers[place] = Box::new(Wrong {
                peer: Peer::default(),
                slip,
            });
            let said = measure(&mut Bench::new(callers), Call::Move);
            assert!(said.is_err_and(|why| why.contains("differ")));
        }
    }
}
