//! The instructions of one fixed call, counted by valgrind where it is there.

use std::env::current_exe;
use std::process::Command;

use model::generate::drawing::{Capacities, Sorts};
use model::generate::random::Random;

use crate::cases::{Call, Case, CALLS};
use crate::measure::Bench;
use crate::report::FULL;
use crate::shapes::{Class, Shape};

/// The drawing that is counted on: the first of this class.
pub const CLASS: Class = Class {
    shape: Shape::Uniform,
    count: FULL,
    capacities: Capacities::Few,
    sorts: Sorts::OnCurve,
};

/// The word that makes this program run one call; then come the call's and the caller's place.
pub const WORD: &str = "count";

/// Only what this function does is counted.
#[export_name = "bench_counted"]
#[inline(never)]
fn counted(call: &mut dyn FnMut() -> u32) -> u32 {
    call()
}

/// One call that is not counted, as every timed one has had its first time, and one that is.
pub fn run(call: Call, caller: usize) {
    let drawing = &CLASS.drawings()[0];
    let case = Case::new(&mut Random::new(0), drawing, call);
    let mut bench = Bench::default();
    bench.call(caller, &case, &mut case.lent.clone());
    let mut lent = case.lent.clone();
    counted(&mut || bench.call(caller, &case, &mut lent));
}

/// The call and the caller that the program's words name.
pub fn asked(words: &[String]) -> Option<(Call, usize)> {
    let [word, call, caller] = words else {
        return None;
    };
    let call = *CALLS.get(call.parse::<usize>().ok()?)?;
    let caller = caller.parse().ok().filter(|caller| *caller < 3)?;
    (word == WORD).then_some((call, caller))
}

/// The instructions of the engine and its peers for each of the calls; or why there are none.
pub fn instructions(calls: &[Call]) -> Result<Vec<(Call, [u64; 3])>, String> {
    let mut counts = Vec::new();
    for (place, call) in CALLS.iter().enumerate() {
        if calls.contains(call) {
            let count = |caller| count(place, caller);
            counts.push((*call, [count(0)?, count(1)?, count(2)?]));
        }
    }
    Ok(counts)
}

fn count(call: usize, caller: usize) -> Result<u64, String> {
    let program = current_exe().map_err(|why| why.to_string())?;
    let out = Command::new("valgrind")
        .args(["--tool=callgrind", "--callgrind-out-file=/dev/null"])
        .args(["--collect-atstart=no", "--toggle-collect=bench_counted"])
        .arg(program)
        .args([WORD, &call.to_string(), &caller.to_string()])
        .output()
        .map_err(|why| format!("valgrind is not there ({why})"))?;
    let said = String::from_utf8_lossy(&out.stderr);
    let collected = said
        .lines()
        .find_map(|line| line.split("Collected :").nth(1));
    collected
        .and_then(|count| count.trim().parse().ok())
        .filter(|count| *count > 0)
        .ok_or(format!("valgrind counted nothing:\n{said}"))
}
