//! The engine and its peers by turns on the same calls: timed, and every answer and byte compared.

use differential::Archive;
use model::engine::Buffers;
use model::generate::random::Random;

use crate::calls::Caller;
use crate::cases::{Call, Case};
use crate::clock::now;
use crate::peer::Peer;
use crate::same::Same;
use crate::shapes::{Class, DRAWINGS};
use crate::sorted::Sorted;

/// Times that each goes over the drawings, after one time that is not counted.
pub const ROUNDS: usize = 15;
/// The plain way takes part in one round of so many: it takes the longest.
pub const PLAIN_EVERY: usize = 5;

/// Microseconds of one call on the drawings of a class.
#[derive(Clone, Copy, Debug)]
pub struct Line {
    pub class: Class,
    pub call: Call,
    pub engine: f64,
    pub engine_worst: f64,
    pub same: f64,
    pub plain: f64,
}

impl Line {
    pub fn by_same(&self) -> f64 {
        self.engine / self.same
    }

    pub fn plain_by(&self) -> f64 {
        self.plain / self.engine
    }
}

/// A call on the drawings of a class, and the times of the three callers.
struct Lot {
    class: Class,
    cases: Vec<Case>,
    times: [Vec<f64>; 3],
}

impl Lot {
    fn new(class: Class, call: Call) -> Lot {
        let case = |(seed, drawing)| Case::new(&mut Random::new(seed), &drawing, call);
        Lot {
            class,
            cases: (0..).zip(class.drawings()).map(case).collect(),
            times: [(); 3].map(|()| Vec::with_capacity(ROUNDS * DRAWINGS)),
        }
    }

    fn line(mut self, call: Call) -> Line {
        for times in &mut self.times {
            times.sort_by(f64::total_cmp);
        }
        let [engine, same, plain] = self.times.each_ref().map(|times| times[times.len() / 2]);
        Line {
            class: self.class,
            call,
            engine,
            engine_worst: self.times[0][self.times[0].len() - 1],
            same,
            plain,
        }
    }
}

const NAMES: [&str; 3] = ["the engine", "the same method", "the plain way"];

pub struct Bench {
    /// The engine, the same method, the plain way.
    callers: [Box<dyn Caller>; 3],
}

impl Default for Bench {
    fn default() -> Bench {
        let (same, plain) = (Peer::<Same>::default(), Peer::<Sorted>::default());
        Bench::new([Box::new(Archive), Box::new(same), Box::new(plain)])
    }
}

impl Bench {
    pub fn new(callers: [Box<dyn Caller>; 3]) -> Bench {
        Bench { callers }
    }

    /// Times a call on drawings of some classes, by turns, so that a busy moment falls on all of them;
    /// an error if two of the three callers differ.
    pub fn measure(&mut self, classes: &[Class], call: Call) -> Result<Vec<Line>, String> {
        let mut lots: Vec<Lot> = classes.iter().map(|class| Lot::new(*class, call)).collect();
        for round in 0..=ROUNDS {
            let callers = if round % PLAIN_EVERY == 0 { 3 } else { 2 };
            for lot in &mut lots {
                for (seed, case) in lot.cases.iter().enumerate() {
                    let differ =
                        |what| format!("{what} differ: {call:?} {:?} seed {seed}", lot.class);
                    let run = self.run(round + seed, callers, case).map_err(differ)?;
                    for (which, time) in run.into_iter().filter(|_| round > 0) {
                        lot.times[which].push(time);
                    }
                }
            }
        }
        Ok(lots.into_iter().map(|lot| lot.line(call)).collect())
    }

    /// Times each of the callers once, on buffers of its own; the turn decides in which order.
    fn run(
        &mut self,
        turn: usize,
        callers: usize,
        case: &Case,
    ) -> Result<Vec<(usize, f64)>, String> {
        let mut times = Vec::with_capacity(callers);
        let mut first: Option<(usize, u32, Buffers)> = None;
        let step = 1 + turn / callers % (callers - 1);
        for which in (0..callers).map(|place| (turn + place * step) % callers) {
            let mut lent = case.lent.clone();
            let caller = &mut self.callers[which];
            let start = now();
            let answer = caller.run(&case.request, &mut lent);
            times.push((which, now() - start));
            match &first {
                None => first = Some((which, answer, lent)),
                Some((other, said, left)) if (answer, &lent) != (*said, left) => {
                    return Err(format!("{} and {}", NAMES[*other], NAMES[which]));
                }
                Some(_) => {}
            }
        }
        Ok(times)
    }

    /// A call by one of the three alone.
    pub fn call(&mut self, caller: usize, case: &Case, lent: &mut Buffers) -> u32 {
        self.callers[caller].run(&case.request, lent)
    }
}
