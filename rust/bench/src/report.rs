//! The lines as text: all of them for a chart, and the tables that sum them up.

use model::generate::drawing::{Capacities, Sorts, CAPACITIES};

use crate::cases::{Call, CALLS, EDITS};
use crate::measure::{Line, PLAIN_EVERY, ROUNDS};
use crate::shapes::{
    sorts_name, Class, Count, Shape, COUNTS, DRAWINGS, GLYPHS, GLYPH_NODES, SHAPES,
};

/// The size that the aims and most tables are about, and the one that growth is counted from.
pub const FULL: Count = Count::Each(512);
pub const HALF: Count = Count::Each(256);

/// What the figures are of.
pub fn heading() -> String {
    format!(
        "Whole calls through the archive, by turns with two peers in safe Rust; after each turn every answer and every\n\
         lent byte is compared. `same` is the engine's method: the lent list is checked without a join, a list is made by\n\
         the chain, and an edit repairs the lent one and checks what comes out. `plain` sorts all pairs, once to check the\n\
         lent list and once for the new one.\n\
         Processor time of the calling thread: medians over {} calls, {DRAWINGS} drawings {ROUNDS} times ({} for `plain`), after\n\
         one time that is not counted. `worst` is the engine's longest call. Each call gets fresh copies of its buffers, not\n\
         timed; nothing else is cleared: the peers keep their own memory, and caches stay warm.",
        DRAWINGS * ROUNDS,
        DRAWINGS * ROUNDS / PLAIN_EVERY
    )
}

pub fn capacities_name(capacities: Capacities) -> &'static str {
    match capacities {
        Capacities::One => "1",
        Capacities::Few => "to 4",
        Capacities::Many => "to 64",
    }
}

fn count_name(count: Count) -> String {
    match count {
        Count::Each(count) => count.to_string(),
        Count::Glyph => format!("{} to {}", GLYPH_NODES.start(), GLYPH_NODES.end()),
    }
}

/// Where a line stands, in words.
pub fn place(line: &Line) -> String {
    let (name, capacities) = (line.class.name(), capacities_name(line.class.capacities));
    format!("{}: {name}, capacities {capacities}", line.call.name())
}

/// A whole number with its thousands set apart.
pub fn whole(number: f64) -> String {
    let digits = format!("{number:.0}");
    let mut text = String::new();
    for (place, digit) in digits.chars().enumerate() {
        if place > 0 && (digits.len() - place) % 3 == 0 {
            text.push(',');
        }
        text.push(digit);
    }
    text
}

pub fn ratio(number: f64) -> String {
    format!("{number:.2}")
}

/// How many times longer the engine takes than at half the size; none where that was not timed.
pub fn growth(lines: &[Line], line: &Line) -> Option<f64> {
    let class = Class {
        count: HALF,
        ..line.class
    };
    let longer = longer_than(lines, line, class)?;
    (line.class.count == FULL).then_some(longer)
}

/// How many times longer the engine takes than in the uniform family, all on-curve; none where that was not timed.
pub fn by_uniform(lines: &[Line], line: &Line) -> Option<f64> {
    let class = Class {
        shape: Shape::Uniform,
        sorts: Sorts::OnCurve,
        ..line.class
    };
    longer_than(lines, line, class)
}

/// The engine's time by that of the same call on another class.
fn longer_than(lines: &[Line], line: &Line, class: Class) -> Option<f64> {
    let same = |other: &&Line| other.class == class && other.call == line.call;
    let other = lines.iter().find(same)?;
    Some(line.engine / other.engine)
}

/// All lines with tabs between their fields.
pub fn lines_text(lines: &[Line]) -> String {
    let mut text =
        "family\tnodes\tcapacities\tsorts\tcall\tengine\tworst\tsame\tplain\n".to_string();
    for line in lines {
        let Class {
            shape,
            count,
            capacities,
            sorts,
        } = line.class;
        let names = [
            shape.name(),
            &count_name(count),
            capacities_name(capacities),
            sorts_name(sorts),
            line.call.name(),
        ];
        let times = [line.engine, line.engine_worst, line.same, line.plain];
        let times = times.map(|time| format!("{time:.2}"));
        text += &format!("{}\t{}\n", names.join("\t"), times.join("\t"));
    }
    text
}

pub fn row<T: AsRef<str>>(fields: &[T]) -> String {
    let fields: Vec<&str> = fields.iter().map(AsRef::as_ref).collect();
    format!("| {} |\n", fields.join(" | "))
}

pub fn head(fields: &[&str]) -> String {
    row(fields) + &row(&vec!["---"; fields.len()])
}

/// The least and the most of a figure over some lines.
fn range(lines: &[&Line], text: fn(f64) -> String, figure: impl Fn(&Line) -> f64) -> String {
    let figures = lines.iter().map(|line| figure(line));
    let (least, most) = figures.fold((f64::INFINITY, 0.0), |(least, most): (f64, f64), new| {
        (least.min(new), most.max(new))
    });
    match text(least) == text(most) {
        true => text(least),
        false => format!("{} to {}", text(least), text(most)),
    }
}

fn most(lines: &[&Line], figure: impl Fn(&Line) -> f64) -> f64 {
    lines.iter().map(|line| figure(line)).fold(0.0, f64::max)
}

/// A row for each call, over all families and capacities at full size.
pub fn by_call(lines: &[Line]) -> String {
    let mut table = head(&[
        "Call",
        "engine, µs",
        "worst, µs",
        "engine / same",
        "plain / engine",
        "512 / 256",
    ]);
    for call in CALLS {
        let of_call = |line: &&Line| line.call == call && line.class.count == FULL;
        let of_call: Vec<&Line> = lines.iter().filter(of_call).collect();
        if of_call.is_empty() {
            continue;
        }
        let grown = |line: &Line| growth(lines, line).unwrap_or(f64::NAN);
        table += &row(&[
            call.name(),
            &range(&of_call, whole, |line| line.engine),
            &whole(most(&of_call, |line| line.engine_worst)),
            &range(&of_call, ratio, Line::by_same),
            &range(&of_call, ratio, Line::plain_by),
            &range(&of_call, ratio, grown),
        ]);
    }
    table
}

/// A row for each family and its capacities at full size, and for glyphs: the edit that takes longest. Families with
/// handles have a row without and a row with them.
pub fn by_family(lines: &[Line]) -> String {
    let mut table = head(&[
        "Family",
        "Capacities",
        "Longest edit",
        "engine, µs",
        "worst, µs",
        "same, µs",
        "plain, µs",
        "engine / same",
        "plain / engine",
        "512 / 256",
    ]);
    let on_curve = SHAPES.into_iter().chain(GLYPHS);
    let on_curve = on_curve.map(|shape| (shape, Sorts::OnCurve));
    let handles = [Shape::Curves, Shape::GlyphCurves].map(|shape| (shape, Sorts::Outline));
    for (shape, sorts) in on_curve.chain(handles) {
        for capacities in CAPACITIES {
            let count = if GLYPHS.contains(&shape) {
                Count::Glyph
            } else {
                FULL
            };
            let class = Class {
                shape,
                count,
                capacities,
                sorts,
            };
            let edits = lines
                .iter()
                .filter(|line| line.class == class && EDITS.contains(&line.call));
            let Some(line) = edits.max_by(|one, other| one.engine.total_cmp(&other.engine)) else {
                continue;
            };
            let kind = line.call.name().trim_start_matches("Edit, ");
            table += &row(&[
                &class.name(),
                capacities_name(capacities),
                kind,
                &whole(line.engine),
                &whole(line.engine_worst),
                &whole(line.same),
                &whole(line.plain),
                &ratio(line.by_same()),
                &ratio(line.plain_by()),
                &growth(lines, line).map_or("–".to_string(), ratio),
            ]);
        }
    }
    table
}

/// A row for each call: the engine's median in its slowest family, by size.
pub fn by_size(lines: &[Line]) -> String {
    let counts = COUNTS.map(Count::Each).into_iter().chain([Count::Glyph]);
    let counts: Vec<Count> = counts.collect();
    let names: Vec<String> = counts.iter().map(|count| count_name(*count)).collect();
    let mut heads = vec!["Call"];
    heads.extend(names.iter().map(String::as_str));
    let mut table = head(&heads);
    for call in CALLS {
        let times = counts.iter().map(|count| {
            let of = |line: &&Line| line.call == call && line.class.count == *count;
            let of: Vec<&Line> = lines.iter().filter(of).collect();
            most(&of, |line| line.engine)
        });
        let times: Vec<f64> = times.collect();
        if times.iter().all(|time| *time > 0.0) {
            let mut fields = vec![call.name().to_string()];
            fields.extend(times.into_iter().map(whole));
            table += &row(&fields);
        }
    }
    table
}

/// Instructions of the engine, the same method and the plain way, in thousands.
pub fn instructions(counts: &[(Call, [u64; 3])]) -> String {
    let mut table = head(&["Call", "engine", "same", "plain", "engine / same"]);
    for (call, counts) in counts {
        let [engine, same, plain] = counts.map(|count| count as f64 / 1e3);
        table += &row(&[
            call.name(),
            &whole(engine),
            &whole(same),
            &whole(plain),
            &ratio(engine / same),
        ]);
    }
    table
}
