//! What an edit and Pair have to reach at full size, and whether they did in this run.

use crate::cases::{Call, EDITS};
use crate::measure::Line;
use crate::report::{by_uniform, growth, place, FULL};

/// An aim holds where its figure is at most the bound on every line that it is about.
struct Aim<'a> {
    says: String,
    about: About,
    bound: f64,
    figure: Box<dyn Fn(&Line) -> f64 + 'a>,
    /// How a figure is shown.
    shown: fn(f64) -> String,
}

#[derive(Clone, Copy, PartialEq, Eq)]
enum About {
    All,
    /// The line on which the engine takes longest.
    Slowest,
}

const SHARE_MICROS: f64 = 1_000.0;
const EDIT_BY_SAME: f64 = 1.2;
const EDIT_PLAIN_BY: f64 = 30.0;
const GROWTH: f64 = 4.5;
const PAIR_BY_SAME: f64 = 1.3;
const PAIR_PLAIN_BY: f64 = 10.0;
const BY_UNIFORM: f64 = 3.0;

/// A row for each aim: reached or not, by its worst line. None where the aim's calls were not timed, and empty where
/// no aim's were.
pub fn aims(lines: &[Line]) -> String {
    let full = |calls: &[Call]| -> Vec<&Line> {
        let of = |line: &&Line| line.class.count == FULL && calls.contains(&line.call);
        lines.iter().filter(of).collect()
    };
    let (edits, pairs) = (full(&EDITS), full(&[Call::Pair]));
    let edits = edit_aims(lines).into_iter().map(|aim| aim.row(&edits));
    let pairs = pair_aims(lines).into_iter().map(|aim| aim.row(&pairs));
    let rows: Vec<String> = edits.chain(pairs).flatten().collect();
    if rows.is_empty() {
        return String::new();
    }
    let head = "| Aim, at 512 nodes a side | In this run | Worst line |\n| --- | --- | --- |\n";
    head.to_string() + &rows.concat()
}

fn edit_aims(lines: &[Line]) -> Vec<Aim<'_>> {
    let [sorting, sorting_slowest] = against_sorting("an edit", EDIT_PLAIN_BY, "sorting twice");
    vec![
        Aim {
            says: "an edit takes at most 1 ms".to_string(),
            about: About::All,
            bound: SHARE_MICROS,
            figure: Box::new(|line| line.engine),
            shown: |figure| format!("{:.2} ms", figure / 1e3),
        },
        against_same("an edit", EDIT_BY_SAME),
        sorting,
        sorting_slowest,
        times_longer(
            format!("from 256 to 512 nodes an edit grows at most {GROWTH} times"),
            GROWTH,
            |line| growth(lines, line).unwrap_or(f64::INFINITY),
        ),
    ]
}

fn pair_aims(lines: &[Line]) -> Vec<Aim<'_>> {
    let [sorting, sorting_slowest] = against_sorting("Pair", PAIR_PLAIN_BY, "sorting all pairs");
    vec![
        against_same("Pair", PAIR_BY_SAME),
        sorting,
        sorting_slowest,
        times_longer(
            format!("Pair takes at most {BY_UNIFORM} times as long as on uniform drawings of the same capacities"),
            BY_UNIFORM,
            |line| by_uniform(lines, line).unwrap_or(f64::INFINITY),
        ),
    ]
}

fn against_same(what: &str, bound: f64) -> Aim<'static> {
    let says = format!("{what} takes at most {bound} times the same method in safe Rust");
    times_longer(says, bound, Line::by_same)
}

fn times_longer<'a>(says: String, bound: f64, figure: impl Fn(&Line) -> f64 + 'a) -> Aim<'a> {
    Aim {
        says,
        about: About::All,
        bound,
        figure: Box::new(figure),
        shown: times,
    }
}

/// The worst of all lines is one on which sorting has little to do; so the slowest line is told beside it.
fn against_sorting(what: &str, bound: f64, sorting: &str) -> [Aim<'static>; 2] {
    let says = format!("{what} is at least {bound} times faster than {sorting}");
    let slowest = format!("in the slowest family, {says}");
    // Turned round, so that less is better here too.
    [(About::All, says), (About::Slowest, slowest)].map(|(about, says)| Aim {
        says,
        about,
        bound: 1.0 / bound,
        figure: Box::new(|line| 1.0 / line.plain_by()),
        shown: |figure| times(1.0 / figure),
    })
}

fn times(figure: f64) -> String {
    format!("{figure:.2} times")
}

impl Aim<'_> {
    fn row(&self, lines: &[&Line]) -> Option<String> {
        let figure = |line: &Line| (self.figure)(line);
        let worst = greatest(lines, |line| match self.about {
            About::All => figure(line),
            About::Slowest => line.engine,
        })?;
        let short = lines.iter().filter(|line| figure(line) > self.bound);
        let reached = match (self.about, figure(worst) > self.bound) {
            (_, false) => "reached".to_string(),
            (About::Slowest, true) => "not reached".to_string(),
            (About::All, true) => {
                format!("not reached on {} of {} lines", short.count(), lines.len())
            }
        };
        let (says, shown) = (&self.says, (self.shown)(figure(worst)));
        Some(format!(
            "| {says} | {reached}: {shown} | {} |\n",
            place(worst)
        ))
    }
}

fn greatest<'a>(lines: &[&'a Line], figure: impl Fn(&Line) -> f64) -> Option<&'a Line> {
    let lines = lines.iter().copied();
    lines.max_by(|one, other| figure(one).total_cmp(&figure(other)))
}
