//! Drawings of two sorts beside the same places all on-curve, timed by turns in one run.

use model::generate::drawing::Sorts;

use crate::cases::{Call, EDITS};
use crate::measure::Line;
use crate::report::{capacities_name, head, ratio, row, whole, FULL};
use crate::shapes::{Class, Count};

/// A row for each class of two sorts at full size and of glyphs: Pair and the edit that takes longest, each with its time
/// where all nodes are on-curve. None where no such call was timed.
pub fn by_sorts(lines: &[Line]) -> String {
    let mut table = head(&[
        "Family",
        "Capacities",
        "Call",
        "two sorts, µs",
        "all on-curve, µs",
        "two sorts / on-curve",
        "same: two sorts / on-curve",
        "engine / same",
    ]);
    let of_two = |line: &&Line| {
        let class = &line.class;
        class.sorts != Sorts::OnCurve && [FULL, Count::Glyph].contains(&class.count)
    };
    let mut classes: Vec<Class> = lines.iter().filter(of_two).map(|line| line.class).collect();
    classes.dedup();
    for class in classes {
        for calls in [&[Call::Pair][..], &EDITS] {
            let of = lines
                .iter()
                .filter(|line| line.class == class && calls.contains(&line.call));
            let longest = of.max_by(|one, other| one.engine.total_cmp(&other.engine));
            table += &longest
                .and_then(|line| row_of(lines, line))
                .unwrap_or_default();
        }
    }
    table
}

fn row_of(lines: &[Line], line: &Line) -> Option<String> {
    let on_curve = Class {
        sorts: Sorts::OnCurve,
        ..line.class
    };
    let beside = |other: &&Line| other.class == on_curve && other.call == line.call;
    let other = lines.iter().find(beside)?;
    Some(row(&[
        &line.class.name(),
        capacities_name(line.class.capacities),
        line.call.name(),
        &whole(line.engine),
        &whole(other.engine),
        &ratio(line.engine / other.engine),
        &ratio(line.same / other.same),
        &ratio(line.by_same()),
    ]))
}
