//! Searches for the slowest edit, for SECONDS, and tells how slow it is; the edit with its drawing goes to target/bench, and
//! CASE=file times such a one again. SEED picks another search, PEER=1 the same method in safe Rust instead of the archive.

use std::env;
use std::fs;
use std::process::ExitCode;
use std::time::Duration;

use bench::calls::Caller;
use bench::files::write;
use bench::hard::hard;
use bench::peer::Peer;
use bench::same::Same;
use bench::trial::{Times, Trial};
use bench::worst::{Aim, Search};
use differential::Archive;
use model::generate::random::Random;
use model::sizes::TABLE_ROWS;

/// Runs of a trial whose times are told.
const RUNS: usize = 51;

fn main() -> ExitCode {
    match run() {
        Ok(()) => ExitCode::SUCCESS,
        Err(why) => {
            eprintln!("worst: {why}");
            ExitCode::FAILURE
        }
    }
}

fn run() -> Result<(), String> {
    let mut caller: Box<dyn Caller> = match number("PEER", 0)? {
        0 => Box::new(Archive),
        _ => Box::new(Peer::<Same>::default()),
    };
    if let Some(path) = env::var("CASE").ok().filter(|path| !path.is_empty()) {
        let text = fs::read_to_string(&path).map_err(|why| format!("{path}: {why}"))?;
        tell(&path, &Trial::read(&text)?, &mut *caller);
        return Ok(());
    }
    for (name, trial) in hard(TABLE_ROWS) {
        tell(name, &trial, &mut *caller);
    }
    let half = Duration::from_secs(number("SECONDS", 60)?) / 2;
    for aim in [Aim::Longest, Aim::Dearest] {
        let random = Random::new(number("SEED", 0)?);
        let caller = &mut *caller;
        let mut search = Search {
            aim,
            caller,
            random,
            timed: 0,
        };
        let climbers = search.climb(half);
        let (timed, caller) = (search.timed, search.caller);
        let path = write(&format!("{aim:?}.txt"), &climbers[0].trial.to_string())?;
        println!("{aim:?} of {timed} edits in {} s: {path}", half.as_secs());
        for climber in &climbers {
            tell(&climber.family, &climber.trial, caller);
        }
    }
    Ok(())
}

fn tell(name: &str, trial: &Trial, caller: &mut dyn Caller) {
    let times = Times::of(&trial.case(caller), caller, RUNS);
    let Times { edit, check, join } = times;
    let edited = trial.edit;
    println!(
        "{name}: edit {edit:.0} µs, check {check:.0}, join {join:.0}, edit / (check + 1.5 joins) {:.2}; \
         kind {} of {} x {} nodes",
        times.by_allowed(),
        edited.kind,
        trial.drawing.a.len(),
        trial.drawing.b.len()
    );
}

fn number(name: &str, default: u64) -> Result<u64, String> {
    match env::var(name).unwrap_or_default().as_str() {
        "" => Ok(default),
        text => text
            .parse()
            .map_err(|_| format!("{name} is no number: {text}")),
    }
}
