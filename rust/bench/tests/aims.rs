//! An aim is reached only where it is on every line, and its worst line is the one that is told.

use bench::aims::aims;
use bench::cases::{Call, EDITS};
use bench::measure::Line;
use bench::report::{FULL, HALF};
use bench::shapes::{Class, Count, Shape, SHAPES};
use model::generate::drawing::{Capacities, Sorts};

fn line(shape: Shape, count: Count, call: Call) -> Line {
    let engine = if count == FULL { 400.0 } else { 100.0 };
    Line {
        class: Class {
            shape,
            count,
            capacities: Capacities::Few,
            sorts: Sorts::OnCurve,
        },
        call,
        engine,
        engine_worst: engine,
        same: engine / 1.1,
        plain: engine * 31.0,
    }
}

type Slip = fn(&mut Line);

const CALLS: [Call; 5] = [
    Call::Pair,
    Call::Arrival,
    Call::Departure,
    Call::Move,
    Call::Capacity,
];

/// A run in which every aim is reached, but for what the slip does to this call on one point.
fn run(call: Call, slip: Slip) -> Vec<String> {
    let mut lines = Vec::new();
    for shape in SHAPES {
        for count in [HALF, FULL] {
            lines.extend(CALLS.map(|call| line(shape, count, call)));
        }
    }
    let at = |line: &&mut Line| {
        let place = (line.class.shape, line.class.count, line.call);
        place == (Shape::OnePoint, FULL, call)
    };
    slip(lines.iter_mut().find(at).unwrap());
    rows(&aims(&lines))
}

fn rows(table: &str) -> Vec<String> {
    table.lines().skip(2).map(str::to_string).collect()
}

#[test]
fn all_reached() {
    let rows = run(Call::Move, |_| {});
    assert_eq!(rows.len(), 9);
    assert!(
        rows.iter().all(|row| row.contains("| reached: ")),
        "{rows:?}"
    );
}

/// The aim's place among the rows, what makes a line miss it, and the figure that is told.
type Miss = (usize, Slip, &'static str);

#[test]
fn one_line_misses_an_aim() {
    let edit: [Miss; 4] = [
        (0, |line| line.engine = 1_001.0, "1.00 ms"),
        (1, |line| line.same = line.engine / 1.21, "1.21 times"),
        (2, |line| line.plain = line.engine * 29.9, "29.90 times"),
        (4, |line| line.engine = 451.0, "4.51 times"),
    ];
    let pair: [Miss; 3] = [
        (5, |line| line.same = line.engine / 1.31, "1.31 times"),
        (6, |line| line.plain = line.engine * 9.9, "9.90 times"),
        (8, |line| line.engine *= 3.01, "3.01 times"),
    ];
    for (call, lines, misses) in [(Call::Move, 36, &edit[..]), (Call::Pair, 9, &pair[..])] {
        for (place, slip, figure) in misses {
            let row = &run(call, *slip)[*place];
            let missed = format!("not reached on 1 of {lines} lines: {figure}");
            assert!(row.contains(&missed), "{row}");
            let at = format!("{}: one point, capacities to 4", call.name());
            assert!(row.contains(&at), "{row}");
        }
    }
}

/// A line on which sorting is fast does not count there unless it is the engine's slowest.
#[test]
fn the_slowest_family_is_told_apart() {
    for (call, place) in [(Call::Move, 3), (Call::Pair, 7)] {
        let fast = run(call, |line| {
            line.engine = 399.0;
            line.plain = 400.0;
        });
        assert!(
            fast[place - 1].contains("| not reached on 1 of"),
            "{fast:?}"
        );
        assert!(fast[place].contains("| reached: 31.00 times"), "{fast:?}");
        let slow = run(call, |line| {
            line.engine = 401.0;
            line.plain = 802.0;
        });
        assert!(
            slow[place].contains("| not reached: 2.00 times"),
            "{slow:?}"
        );
        assert!(slow[place].contains("one point"), "{slow:?}");
    }
}

#[test]
fn only_what_was_timed() {
    let alone = |call| rows(&aims(&[line(Shape::Uniform, FULL, call)])).len();
    assert_eq!(alone(Call::Pair), 4);
    assert!(EDITS.iter().all(|call| alone(*call) == 5));
    assert_eq!(aims(&[line(Shape::Uniform, FULL, Call::Step)]), "");
    assert_eq!(aims(&[line(Shape::Uniform, HALF, Call::Pair)]), "");
}
