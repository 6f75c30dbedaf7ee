//! A climbing search for the slowest edit: from many families, by changes that are kept where the edit got slower.

use std::time::{Duration, Instant};

use model::generate::drawing::{Capacities, CAPACITIES};
use model::generate::places::{places, Place, FAMILIES};
use model::generate::random::Random;
use model::rows::Node;
use model::sizes::TABLE_ROWS;

use crate::calls::Caller;
use crate::changes::{any_edit, changed};
use crate::hard::hard;
use crate::shapes::{Drawing, SHAPES};
use crate::trial::{least, Times, Trial};

/// What a search climbs to.
#[derive(Clone, Copy, Debug, PartialEq, Eq)]
pub enum Aim {
    /// The edit that takes longest.
    Longest,
    /// The edit that takes longest by what it may take: a check and one and a half joins.
    Dearest,
}

/// Runs of a look at a trial, and of a second look that decides.
const LOOK: usize = 3;
const AGAIN: usize = 9;

/// Edits that are tried of a drawing at the start.
const EDITS: usize = 8;

/// After each stage the lesser half of the climbers stays behind, as long as there are enough to be told of.
const STAGES: u32 = 5;
pub const TOLD: usize = 5;

/// A trial, and how far it has climbed.
pub struct Climber {
    pub family: String,
    pub trial: Trial,
    pub score: f64,
}

pub struct Search<'a> {
    pub aim: Aim,
    pub caller: &'a mut dyn Caller,
    pub random: Random,
    /// Trials that were timed.
    pub timed: usize,
}

impl Search<'_> {
    /// The climbers that were left after this time, the highest first.
    pub fn climb(&mut self, time: Duration) -> Vec<Climber> {
        let start = Instant::now();
        let mut climbers = self.climbers();
        for stage in 1..=STAGES {
            while start.elapsed() < time * stage / STAGES {
                climbers.iter_mut().for_each(|climber| self.step(climber));
            }
            climbers.sort_by(|one, other| other.score.total_cmp(&one.score));
            climbers.truncate(climbers.len().div_ceil(2).max(TOLD));
        }
        climbers
    }

    /// One for each family, with the best of some edits.
    fn climbers(&mut self) -> Vec<Climber> {
        let mut starts = Vec::new();
        for (name, trial) in hard(TABLE_ROWS) {
            starts.push((name.to_string(), trial));
        }
        for (family, drawing) in drawings(&mut self.random) {
            for _ in 0..EDITS {
                let (drawing, edit) = (drawing.clone(), any_edit(&mut self.random, &drawing));
                starts.push((family.clone(), Trial { drawing, edit }));
            }
        }
        let mut climbers: Vec<Climber> = Vec::new();
        for (family, trial) in starts {
            let score = self.score(&trial, LOOK);
            match climbers.last_mut() {
                Some(last) if last.family == family && last.score >= score => {}
                Some(last) if last.family == family => (last.trial, last.score) = (trial, score),
                _ => climbers.push(Climber {
                    family,
                    trial,
                    score,
                }),
            }
        }
        climbers
    }

    fn step(&mut self, climber: &mut Climber) {
        let trial = changed(&mut self.random, &climber.trial);
        if self.score(&trial, LOOK) > climber.score {
            let score = self.score(&trial, AGAIN);
            if score > climber.score {
                (climber.trial, climber.score) = (trial, score);
            }
        }
    }

    fn score(&mut self, trial: &Trial, runs: usize) -> f64 {
        self.timed += 1;
        let case = trial.case(self.caller);
        match self.aim {
            Aim::Longest => least(self.caller, &case.request, &case.lent, runs),
            Aim::Dearest => Times::of(&case, self.caller, runs).by_allowed(),
        }
    }
}

/// Full drawings of every family that is timed or tested, with each class of capacities.
fn drawings(random: &mut Random) -> Vec<(String, Drawing)> {
    let mut all = Vec::new();
    for capacities in CAPACITIES {
        for shape in SHAPES {
            let drawing = Drawing::new(random, shape, TABLE_ROWS, capacities);
            all.push((format!("{shape:?}, {capacities:?}"), drawing));
        }
        for family in FAMILIES {
            let (a, b) = places(random, family, TABLE_ROWS, TABLE_ROWS);
            let [a, b] = [a, b].map(|places| master(random, &places, capacities));
            all.push((
                format!("family {family:?}, {capacities:?}"),
                Drawing { a, b },
            ));
        }
    }
    all
}

fn master(random: &mut Random, places: &[Place], capacities: Capacities) -> Vec<Node> {
    let mut numbers: Vec<u64> = (1..=places.len() as u64).collect();
    random.shuffle(&mut numbers);
    let node = |((across, up), number): (&Place, u64)| {
        Node::new(number, *across, *up, capacities.capacity(random))
    };
    places.iter().zip(numbers).map(node).collect()
}
