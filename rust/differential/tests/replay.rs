//! The replay program beside the model's text: whole inputs, and inputs that come in pieces or stay open.

mod program;

use model::buffers::{table_of, table_row_mut};
use model::engine::Request;
use model::generate::damage::{damage_table, TABLE_FAULTS};
use model::generate::drawing::{Drawing, Size};
use model::generate::edits::unknown_number;
use model::generate::history::History;
use model::generate::random::Random;
use model::replay::replay;
use model::report::hex;
use model::rows::{Edit, Node};
use model::sizes::*;
use program::Program;

const REPLAY: Program = Program("replay");

fn node(number: u64, horizontal: i64, vertical: i64) -> Node {
    Node::new(number, horizontal, vertical, 1)
}

fn tables(a: &[Node], b: &[Node]) -> Vec<u8> {
    [table_of(a), table_of(b)].concat()
}

fn with_edits(mut input: Vec<u8>, edits: &[Edit]) -> Vec<u8> {
    for edit in edits {
        input.extend(edit.bytes());
    }
    input
}

fn e11_tables() -> Vec<u8> {
    let a = [node(1, 0, 0), node(2, 10, 0)];
    tables(&a, &[node(1, 4, 0), node(2, 12, 0)])
}

fn e11() -> Vec<u8> {
    let arrival = Edit::arrival(MASTER_A, node(3, 5, 0));
    with_edits(e11_tables(), &[arrival, Edit::departure(MASTER_A, 2)])
}

fn compare(what: &str, input: &[u8]) {
    let (text, right) = (REPLAY.run(input), replay(input));
    assert!(
        text == right,
        "{what}: {}",
        difference(&text, &right, input)
    );
}

/// The first line that differs, and the input.
fn difference(text: &str, right: &str, input: &[u8]) -> String {
    let (lines, others): (Vec<_>, Vec<_>) = (text.lines().collect(), right.lines().collect());
    let same = lines
        .iter()
        .zip(&others)
        .take_while(|(line, other)| line == other);
    let at = same.count();
    format!(
        "line {at} is {:?}, not {:?}; {} bytes of text, not {}; input {}",
        lines.get(at),
        others.get(at),
        text.len(),
        right.len(),
        hex(&input[..input.len().min(2 * REPLAY_TABLES_BYTES)])
    )
}

/// The edits of a history, good and bad.
fn edits_of(history: &History) -> Vec<u8> {
    let edits = history.calls.iter().filter_map(|call| match &call.request {
        Request::Edit { edit } if edit.len() == EDIT_BYTES => Some(&edit[..]),
        _ => None,
    });
    edits.flatten().copied().collect()
}

/// A drawing and edits on it, of a history of so many calls.
fn generated(random: &mut Random, size: Size, calls: usize) -> Vec<u8> {
    let history = History::random(random, size, calls);
    let input = tables(&history.drawing.a, &history.drawing.b);
    [input, edits_of(&history)].concat()
}

#[test]
fn e10_full_masters() {
    let mut random = Random::new(10);
    for size in [Size::OneFull, Size::Full, Size::Full] {
        let mut drawing = Drawing::random(&mut random, size);
        if drawing.a.len() < drawing.b.len() {
            std::mem::swap(&mut drawing.a, &mut drawing.b);
        }
        while drawing.a.len() < TABLE_ROWS {
            let number = unknown_number(&mut random, &drawing.a);
            drawing.a.push(node(number, 0, 0));
        }
        let (known, new) = (drawing.a[7], unknown_number(&mut random, &drawing.a));
        let edits = [
            Edit::arrival(MASTER_A, known),
            Edit::arrival(MASTER_A, node(new, 0, 0)),
            Edit::departure(MASTER_A, known.number),
            Edit::arrival(MASTER_A, node(new, 0, 0)),
            Edit::arrival(MASTER_A, known),
        ];
        let input = with_edits(tables(&drawing.a, &drawing.b), &edits);
        let text = REPLAY.run(&input);
        let refused: Vec<&str> = text
            .lines()
            .filter(|line| line.contains("refused"))
            .collect();
        let right = ["edit 1 refused 9", "edit 2 refused 10", "edit 5 refused 10"];
        assert_eq!(refused, right);
        compare("E10", &input);
    }
}

#[test]
fn e11_text() {
    let text =
        "load 2\nedit 1 kept 0 links 2\nedit 2 kept 1 links 2\nlink 3 1 1 1\nlink 1 2 144 1\n";
    assert_eq!(REPLAY.run(&e11()), text);
}

/// Nodes pair with their own sort only; one that changes its sort takes another's partner, and gives it back.
#[test]
fn handles_text() {
    let a = [node(1, 0, 0), Node::off_curve(2, 10, 0, 1)];
    let b = [Node::off_curve(1, 1, 0, 1), node(2, 9, 0)];
    let to_sort = |sort| Edit::new_capacity(MASTER_A, 1, 1).with_sort(sort);
    let edits = [
        to_sort(SORT_OFF_CURVE),
        to_sort(SORT_ON_CURVE),
        Edit::departure(MASTER_A, 1).with_sort(SORT_OFF_CURVE),
        Edit::arrival(MASTER_A, node(3, 0, 0).with_sort(SORT_MAX + 1)),
    ];
    let text = "load 2\nedit 1 kept 0 links 1\nedit 2 kept 0 links 2\nedit 3 refused 8\nedit 4 refused 8\n\
                link 1 2 81 1\nlink 2 1 81 1\n";
    let input = with_edits(tables(&a, &b), &edits);
    assert_eq!(REPLAY.run(&input), text);
    compare("handles", &input);
}

#[test]
fn short_inputs() {
    let whole = e11();
    for length in [
        0,
        1,
        9,
        TABLE_BYTES - 1,
        TABLE_BYTES,
        REPLAY_TABLES_BYTES - 1,
    ] {
        assert_eq!(REPLAY.run(&whole[..length]), "short\n", "{length} bytes");
    }
    // Whatever the tables hold.
    assert_eq!(REPLAY.run(&vec![0xff; REPLAY_TABLES_BYTES - 1]), "short\n");
}

#[test]
fn tables_and_nothing_more() {
    assert_eq!(REPLAY.run(&vec![0; REPLAY_TABLES_BYTES]), "load 0\n");
    compare("E11's tables", &e11_tables());
    for (seed, size) in [Size::Small, Size::OneFull, Size::Any, Size::Full]
        .into_iter()
        .enumerate()
    {
        let drawing = Drawing::random(&mut Random::new(seed as u64), size);
        compare("tables", &tables(&drawing.a, &drawing.b));
    }
}

#[test]
fn parts_left_over() {
    let whole = e11();
    for left in 1..EDIT_BYTES {
        for edits in 0..2 {
            let input = &whole[..REPLAY_TABLES_BYTES + edits * EDIT_BYTES + left];
            assert!(REPLAY.run(input).contains(&format!("\npart {left}\nlink ")));
            compare("a part", input);
        }
    }
}

#[test]
fn refused_tables() {
    for (start, number) in [(0, 2), (TABLE_BYTES, 3)] {
        for row in [0, 1, 2, TABLE_ROWS - 1] {
            let text = format!("load refused {number} row {row}\n");
            for (field, bad) in [(NODE_CAPACITY, CAPACITY_MAX + 1), (NODE_SORT, SORT_MAX + 1)] {
                let mut input = e11();
                field.write(table_row_mut(&mut input[start..], row), bad);
                assert_eq!(REPLAY.run(&input), text);
            }
        }
    }
    for seed in 0..200 {
        let random = &mut Random::new(seed);
        let mut input = generated(random, Size::Small, 4);
        let start = random.pick(&[0, TABLE_BYTES]);
        let fault = random.pick(&TABLE_FAULTS);
        damage_table(random, &mut input[start..start + TABLE_BYTES], fault);
        compare("a damaged table", &input);
    }
}

#[test]
fn generated_inputs() {
    let sizes = [
        (Size::Tiny, 200),
        (Size::Small, 200),
        (Size::Medium, 40),
        (Size::OneFull, 20),
    ];
    let great = [(Size::Any, 3), (Size::Full, 3)];
    let (mut replays, mut edits) = (0, 0);
    for (size, times) in sizes.into_iter().chain(great) {
        for seed in 0..times {
            let random = &mut Random::new(seed);
            let calls = if times > 3 { 60 } else { 12 };
            let mut input = generated(random, size, calls);
            edits += (input.len() - REPLAY_TABLES_BYTES) / EDIT_BYTES;
            let left = random.size(0, EDIT_BYTES - 1);
            input.extend(random.bytes(left));
            compare(&format!("{size:?}, seed {seed}"), &input);
            replays += 1;
        }
    }
    println!("generated inputs replayed: {replays}, with {edits} edits");
    assert!(edits >= 10_000);
}

/// A drawing and so many edits: those of a short history over and over, which keeps the drawing small, and last a
/// departure.
fn many_edits(edits: usize) -> Vec<u8> {
    let random = &mut Random::new(edits as u64);
    let history = History::random(random, Size::Tiny, 60);
    let again = edits_of(&history).into_iter().cycle();
    let mut input = tables(&history.drawing.a, &history.drawing.b);
    input.extend(again.take((edits - 1) * EDIT_BYTES));
    let number = NODE_NUMBER.read(&input);
    with_edits(input, &[Edit::departure(MASTER_A, number)])
}

#[test]
fn ten_thousand_edits_and_more() {
    for edits in [
        REPLAY_EDITS - 1,
        REPLAY_EDITS,
        REPLAY_EDITS + 1,
        REPLAY_EDITS + 500,
    ] {
        for left in [0, 1, EDIT_BYTES - 1] {
            let mut input = many_edits(edits);
            input.extend(vec![3; left]);
            let text = replay(&input);
            let kinds = ["kept", "refused"].map(|kind| text.matches(kind).count());
            assert!(kinds.iter().all(|times| *times >= 1_000), "{kinds:?}");
            compare(&format!("{edits} edits and {left} bytes"), &input);
        }
    }
}

#[test]
fn inputs_in_pieces() {
    let cut = |at: &[usize], input: &[u8]| {
        let text = REPLAY.run_slowly(input, at);
        let right = replay(input);
        assert!(
            text == right,
            "cut at {at:?}: {}",
            difference(&text, &right, input)
        );
    };
    let whole = e11();
    let last = whole.len();
    cut(&[1, 2, TABLE_BYTES - 1, TABLE_BYTES + 1], &whole);
    cut(
        &[REPLAY_TABLES_BYTES - 1, REPLAY_TABLES_BYTES, last - 1],
        &whole,
    );
    cut(&[TABLE_BYTES], &whole[..REPLAY_TABLES_BYTES - 1]);
    cut(
        &[REPLAY_TABLES_BYTES + 3, REPLAY_TABLES_BYTES + 7],
        &whole[..last - 4],
    );
    for seed in 0..40 {
        let random = &mut Random::new(seed);
        let mut input = generated(random, Size::Small, 30);
        let left = random.size(0, EDIT_BYTES - 1);
        input.extend(random.bytes(left));
        let mut places: Vec<usize> = (0..20).map(|_| random.size(1, input.len())).collect();
        // Every byte of the last edits for itself.
        places.extend(input.len().saturating_sub(25)..input.len());
        places.sort_unstable();
        cut(&places, &input);
    }
}

#[test]
fn input_that_stays_open() {
    for more in [0, 5, 10, 100_000] {
        let mut input = many_edits(REPLAY_EDITS);
        let right = replay(&input);
        input.extend(vec![1; more]);
        let text = REPLAY.run_open(&input);
        assert!(
            text == right,
            "{more} bytes more: {}",
            difference(&text, &right, &input)
        );
    }
}
