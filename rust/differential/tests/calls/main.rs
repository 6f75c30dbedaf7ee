//! The calls of the archive beside the model's: answers, every lent byte, and the bytes around them.
//!
//! A failure prints its seed; `PAIRING_SEED=0x.. cargo test --release --test calls` runs that seed alone.

mod history;
mod judge;
mod lent;
mod requests;
mod singles;
mod tally;
mod worlds;

use std::env;
use std::panic::resume_unwind;
use std::sync::atomic::{AtomicU64, AtomicUsize, Ordering};
use std::thread;
use std::time::{Duration, Instant, SystemTime};

use judge::Mismatch;
use model::generate::drawing::Size;
use model::generate::random::Random;
use tally::{Class, Tally, CLASSES};
use worlds::WORLDS;

/// Seeds of the gate's run, from 0.
const SEEDS: u64 = 5_100;
/// Calls of a history, and of one on a great drawing, where the model is slow.
const CALLS: usize = 40;
const GREAT_CALLS: usize = 16;
/// So many mismatches end a run.
const ENOUGH: usize = 5;

/// What a seed stands for: single calls on a drawing of each class, tables lent as one, or a history.
fn run_seed(seed: u64, tally: &mut Tally) -> Result<(), Box<Mismatch>> {
    let random = &mut Random::new(seed);
    match seed % 100 {
        place @ 0..=13 => singles::run(random, CLASSES[place as usize / 2].0, tally),
        14..=15 => singles::run_shared(random, tally),
        16 if seed % 1_000 == 16 => history::run(random, Size::Full, GREAT_CALLS, tally),
        16 if seed % 1_000 == 116 => history::run(random, Size::Any, GREAT_CALLS, tally),
        16..=17 => history::run(random, Size::OneFull, CALLS, tally),
        18..=20 => history::run(random, Size::Medium, CALLS, tally),
        21..=59 => history::run(random, Size::Small, CALLS, tally),
        _ => history::run(random, Size::Tiny, CALLS, tally),
    }
}

/// Runs a worker on every processor, and puts together what they counted and where the archive was wrong.
fn on_all_processors<W>(worker: W) -> (Tally, Vec<String>)
where
    W: Fn(&mut Tally, &mut Vec<String>) + Sync,
{
    let mut tally = Tally::default();
    let mut wrong = Vec::new();
    thread::scope(|scope| {
        let work = || {
            let (mut tally, mut wrong) = (Tally::default(), Vec::new());
            worker(&mut tally, &mut wrong);
            (tally, wrong)
        };
        let count = thread::available_parallelism().map_or(1, usize::from);
        let threads: Vec<_> = (0..count).map(|_| scope.spawn(work)).collect();
        for thread in threads {
            let (part, lines) = thread
                .join()
                .unwrap_or_else(|failure| resume_unwind(failure));
            tally.add(&part);
            wrong.extend(lines);
        }
    });
    (tally, wrong)
}

/// Prints a mismatch at once, and keeps it.
fn note(wrong: &mut Vec<String>, place: String, outcome: Result<(), Box<Mismatch>>) {
    if let Err(mismatch) = outcome {
        println!("{place}: {mismatch}");
        wrong.push(place);
    }
}

/// Runs seeds one after the other for as long as there is one.
fn run_seeds(next: impl Fn() -> Option<u64>, tally: &mut Tally, wrong: &mut Vec<String>) {
    while wrong.len() < ENOUGH {
        let Some(seed) = next() else { return };
        let outcome = run_seed(seed, tally);
        note(wrong, format!("seed {seed:#x}"), outcome);
    }
}

/// Runs the tiny worlds, an A of theirs at a time.
fn run_worlds(next: impl Fn() -> usize, tally: &mut Tally, wrong: &mut Vec<String>) {
    let all = WORLDS.iter().flat_map(|world| {
        let lights = world.lights().into_iter();
        lights.map(move |a| (world, a))
    });
    let all: Vec<_> = all.collect();
    while wrong.len() < ENOUGH {
        let place = next();
        let Some((world, a)) = all.get(place) else {
            return;
        };
        let outcome = world.run(a, tally);
        note(wrong, format!("tiny world, A {place}"), outcome);
    }
}

/// The seed that is asked for, if one is.
fn asked_seed() -> Option<u64> {
    let text = env::var("PAIRING_SEED").ok()?;
    let digits = text.trim_start_matches("0x");
    Some(u64::from_str_radix(digits, 16).expect("a seed in hex"))
}

#[test]
fn as_the_model() {
    if let Some(seed) = asked_seed() {
        let outcome = run_seed(seed, &mut Tally::default());
        let mut wrong = Vec::new();
        note(&mut wrong, format!("seed {seed:#x}"), outcome);
        return assert!(wrong.is_empty());
    }
    let seeds = AtomicU64::new(0);
    let next = || Some(seeds.fetch_add(1, Ordering::Relaxed)).filter(|seed| *seed < SEEDS);
    let (tally, wrong) = on_all_processors(|tally, wrong| run_seeds(next, tally, wrong));
    println!("{tally}");
    assert!(wrong.is_empty(), "mismatches: {}", wrong.len());
    assert_eq!(tally.rare(), [], "cells that were met too rarely");
    assert_eq!(tally.kinds_missed(), [], "kinds never done at full size");
    assert_eq!(tally.sorts_kept(), [], "sizes at which no sort changed");
    assert!(tally.calls() >= 200_000);
    assert!(2 * tally.done() >= tally.calls());
}

#[test]
fn tiny_worlds() {
    let places = AtomicUsize::new(0);
    let next = || places.fetch_add(1, Ordering::Relaxed);
    let (tally, wrong) = on_all_processors(|tally, wrong| run_worlds(next, tally, wrong));
    let (calls, done) = (tally.calls(), tally.done());
    println!("calls in tiny worlds: {calls}, of these done: {done}");
    assert!(wrong.is_empty(), "mismatches: {}", wrong.len());
    assert!(done >= 1_000_000);
}

/// The same with fresh seeds, for FUZZ_SECONDS: `make fuzz SECONDS=n`.
#[test]
#[ignore = "takes as long as it is told to: make fuzz"]
fn fuzz() {
    let seconds = env::var("FUZZ_SECONDS").map_or(60, |text| text.parse().expect("seconds"));
    let end = Instant::now() + Duration::from_secs(seconds);
    let now = SystemTime::now().duration_since(SystemTime::UNIX_EPOCH);
    let first = Random::new(now.expect("a clock").as_nanos() as u64).word() >> 1;
    let seeds = AtomicU64::new(first);
    let next = || (Instant::now() < end).then(|| seeds.fetch_add(1, Ordering::Relaxed));
    let (tally, wrong) = on_all_processors(|tally, wrong| run_seeds(next, tally, wrong));
    println!("{tally}");
    println!("fuzz: {seconds} seconds, seeds from {first:#x}");
    println!("calls {}, mismatches {}", tally.calls(), wrong.len());
    assert!(wrong.is_empty(), "PAIRING_SEED=.. runs one of {wrong:?}");
}

/// The classes and the plan of seeds fit together.
const _: () = assert!(CLASSES.len() == 7 && matches!(CLASSES[6].0, Class::Full));
