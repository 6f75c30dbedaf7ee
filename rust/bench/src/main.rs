//! Times the engine's calls beside their peers and prints the tables. ONLY=text picks the calls with that text in
//! their name, SORTS=on-curve the drawings of one sort; a run of all also writes its tables and lines to target/bench,
//! where tools/chart finds them.

use std::env;
use std::process::ExitCode;

use bench::aims::aims;
use bench::cases::{Call, CALLS, EDITS};
use bench::count;
use bench::files::write;
use bench::hard;
use bench::measure::{Bench, Line};
use bench::mixed::by_sorts;
use bench::report::*;
use bench::shapes::Class;

fn main() -> ExitCode {
    let words: Vec<String> = env::args().skip(1).collect();
    if let Some((call, caller)) = count::asked(&words) {
        count::run(call, caller);
        return ExitCode::SUCCESS;
    }
    match run() {
        Ok(()) => ExitCode::SUCCESS,
        Err(why) => {
            eprintln!("bench: {why}");
            ExitCode::FAILURE
        }
    }
}

fn run() -> Result<(), String> {
    let only = env::var("ONLY").unwrap_or_default().to_lowercase();
    let calls = Call::named(&only);
    if calls.is_empty() {
        let names = CALLS.map(Call::name).join("; ");
        return Err(format!("no call has {only:?} in its name: {names}"));
    }
    println!("{}\n", heading());
    let sorts = env::var("SORTS").unwrap_or_default();
    let groups = Class::groups_of(&sorts);
    if groups.is_empty() {
        return Err(format!("no drawing has the sorts {sorts:?}"));
    }
    let lines = measure(&calls, &groups)?;
    let tables = tables(&lines, &calls);
    print!("{tables}");
    if calls.len() == CALLS.len() && sorts.is_empty() {
        write("tables.md", &tables)?;
        write("lines.tsv", &lines_text(&lines))?;
    }
    Ok(())
}

fn measure(calls: &[Call], groups: &[Vec<Class>]) -> Result<Vec<Line>, String> {
    let mut bench = Bench::default();
    let mut lines = Vec::new();
    let mut family = "";
    for group in groups {
        if group[0].shape.name() != family {
            family = group[0].shape.name();
            eprintln!("bench: {family}");
        }
        for call in calls {
            lines.extend(bench.measure(group, *call)?);
        }
    }
    Ok(lines)
}

/// Where edits are timed.
fn hard_table(calls: &[Call]) -> String {
    match EDITS.iter().all(|edit| calls.contains(edit)) {
        true => hard::table(),
        false => String::new(),
    }
}

fn tables(lines: &[Line], calls: &[Call]) -> String {
    let counted = match count::instructions(calls) {
        Ok(counts) => instructions(&counts),
        Err(why) => format!("Not counted: {why}\n"),
    };
    let class = &count::CLASS;
    let (family, capacities) = (class.shape.name(), capacities_name(class.capacities));
    let counted_on = format!(
        "Thousands of instructions at 512 nodes a side ({family}, capacities {capacities}, by callgrind)"
    );
    let tables = [
        ("Aims", aims(lines)),
        (
            "By call, at 512 nodes a side, over all families and capacities",
            by_call(lines),
        ),
        (
            "The longest edit by family, at 512 nodes a side and on glyphs' outlines",
            by_family(lines),
        ),
        (
            "Two sorts beside the same places all on-curve, at 512 nodes a side and on glyphs' outlines",
            by_sorts(lines),
        ),
        (
            "Edits that change most links, at 512 nodes a side: the least of some runs",
            hard_table(calls),
        ),
        (
            "By nodes a side: the engine's median in the slowest family, µs",
            by_size(lines),
        ),
        (&counted_on, counted),
    ];
    let full = tables
        .into_iter()
        .filter(|(_, table)| table.lines().count() != 2);
    let texts = full.filter(|(_, table)| !table.is_empty());
    let texts: Vec<String> = texts
        .map(|(name, table)| format!("**{name}**\n\n{table}"))
        .collect();
    texts.join("\n")
}
