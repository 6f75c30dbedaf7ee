//! The replay program's text (document 01, Cases, E11 and what follows it).

use model::buffers::{table_of, table_row_mut};
use model::engine::Request;
use model::generate::drawing::Size;
use model::generate::history::History;
use model::generate::random::Random;
use model::paper::{Lengths, PaperCall, PaperDrawing};
use model::replay::replay;
use model::report::hex;
use model::rows::{Edit, Node};
use model::sizes::*;

fn node(number: u64, horizontal: i64, vertical: i64) -> Node {
    Node::new(number, horizontal, vertical, 1)
}

fn tables(a: &[Node], b: &[Node]) -> Vec<u8> {
    [table_of(a), table_of(b)].concat()
}

fn e11_tables() -> Vec<u8> {
    tables(
        &[node(1, 0, 0), node(2, 10, 0)],
        &[node(1, 4, 0), node(2, 12, 0)],
    )
}

fn e11() -> Vec<u8> {
    let arrival = Edit::arrival(MASTER_A, node(3, 5, 0)).bytes();
    let departure = Edit::departure(MASTER_A, 2).bytes();
    [&e11_tables()[..], &arrival, &departure].concat()
}

#[test]
fn e11_text() {
    let text = "load 2\n\
                edit 1 kept 0 links 2\n\
                edit 2 kept 1 links 2\n\
                link 3 1 1 1\n\
                link 1 2 144 1\n";
    assert_eq!(replay(&e11()), text);
}

#[test]
fn short_input() {
    let whole = e11();
    for length in [0, 1, TABLE_BYTES, REPLAY_TABLES_BYTES - 1] {
        assert_eq!(replay(&whole[..length]), "short\n");
    }
    // Even where what is there of the tables is faulty.
    assert_eq!(replay(&vec![0xff; REPLAY_TABLES_BYTES - 1]), "short\n");
}

#[test]
fn tables_and_nothing_more() {
    assert_eq!(replay(&vec![0; REPLAY_TABLES_BYTES]), "load 0\n");
    let text = "load 2\nlink 2 2 4 1\nlink 1 1 16 1\n";
    assert_eq!(replay(&e11_tables()), text);
}

#[test]
fn refused_tables() {
    for (table, number) in [(MASTER_A, 2), (MASTER_B, 3)] {
        for row in [0, 1, 2, TABLE_ROWS - 1] {
            let mut input = e11();
            let start = if table == MASTER_A { 0 } else { TABLE_BYTES };
            let faulty = table_row_mut(&mut input[start..], row);
            NODE_CAPACITY.write(faulty, CAPACITY_MAX + 1);
            let text = format!("load refused {number} row {row}\n");
            assert_eq!(replay(&input), text);
        }
    }
}

#[test]
fn part_of_an_edit() {
    let whole = e11();
    let first = "load 2\nedit 1 kept 0 links 2\n";
    let last = "link 3 1 1 1\nlink 2 2 4 1\n";
    for left in 1..EDIT_BYTES {
        let input = &whole[..REPLAY_TABLES_BYTES + EDIT_BYTES + left];
        assert_eq!(replay(input), format!("{first}part {left}\n{last}"));
    }
    let input = &whole[..REPLAY_TABLES_BYTES + 1];
    assert_eq!(
        replay(input),
        "load 2\npart 1\nlink 2 2 4 1\nlink 1 1 16 1\n"
    );
}

#[test]
fn refused_edits_are_counted() {
    let good = Edit::departure(MASTER_A, 2);
    let bad = [
        (Edit { kind: 0, ..good }, 6),
        (Edit { master: 2, ..good }, 7),
        (Edit { number: 0, ..good }, 8),
        (Edit { number: 9, ..good }, 9),
    ];
    let mut input = e11_tables();
    let mut text = "load 2\n".to_string();
    for (place, (edit, number)) in bad.iter().enumerate() {
        input.extend(edit.bytes());
        text.push_str(&format!("edit {} refused {number}\n", place + 1));
    }
    input.extend(good.bytes());
    text.push_str("edit 5 kept 0 links 1\nlink 1 1 16 1\n");
    assert_eq!(replay(&input), text);
}

#[test]
fn full_master_is_refused() {
    let full: Vec<Node> = (1..=TABLE_ROWS as u64).map(|n| node(n, 0, 0)).collect();
    let arrival = Edit::arrival(MASTER_A, node(TABLE_ROWS as u64 + 1, 0, 0));
    let input = [&tables(&full, &[node(5, 0, 3)])[..], &arrival.bytes()].concat();
    assert_eq!(replay(&input), "load 1\nedit 1 refused 10\nlink 1 5 9 1\n");
}

#[test]
fn no_more_than_so_many_edits() {
    let there = Edit::moved(MASTER_A, 2, 10, 0).bytes();
    let refused = Edit::departure(MASTER_A, 9).bytes();
    let departure = Edit::departure(MASTER_A, 2).bytes();
    let input_of = |edits: usize| {
        let mut input = e11_tables();
        for place in 1..edits {
            input.extend(if place % 2 == 0 { refused } else { there });
        }
        input.extend(departure);
        input
    };
    let text_of = |edits: usize, last: &str| {
        let mut text = "load 2\n".to_string();
        for place in 1..edits {
            text.push_str(&match place % 2 {
                0 => format!("edit {place} refused 9\n"),
                _ => format!("edit {place} kept 2 links 2\n"),
            });
        }
        text + last
    };

    let mut input = input_of(REPLAY_EDITS);
    let departed = format!("edit {REPLAY_EDITS} kept 0 links 1\nlink 1 1 16 1\n");
    let text = text_of(REPLAY_EDITS, &departed);
    assert_eq!(replay(&input), text);
    // What follows the last edit that is read is neither an edit nor a part.
    for _ in 0..EDIT_BYTES + 1 {
        input.push(3);
        assert_eq!(replay(&input), text);
    }
    // One edit less, and what is left over is a part.
    let mut input = input_of(REPLAY_EDITS - 1);
    input.extend([0; EDIT_BYTES - 1]);
    let (edits, left) = (REPLAY_EDITS - 1, EDIT_BYTES - 1);
    let departed = format!("edit {edits} kept 0 links 1\npart {left}\nlink 1 1 16 1\n");
    assert_eq!(replay(&input), text_of(edits, &departed));
    // One edit more is not read: here the departure.
    let input = input_of(REPLAY_EDITS + 1);
    let staying = "link 2 2 4 1\nlink 1 1 16 1\n";
    assert_eq!(replay(&input), text_of(REPLAY_EDITS + 1, staying));
}

/// The text worked out with the paper drawing alone.
fn text_on_paper(history: &History, edits: &[&[u8]], left: usize) -> String {
    let (a, b) = (history.drawing.a.clone(), history.drawing.b.clone());
    let mut paper = PaperDrawing::new(a, b).expect("accepted masters");
    let stated = Lengths {
        a: TABLE_BYTES,
        b: TABLE_BYTES,
        list: LIST_BYTES,
    };
    let mut text = format!("load {}\n", paper.call(stated, PaperCall::Pair).value);
    for (place, edit) in edits.iter().enumerate() {
        let answer = paper.call(stated, PaperCall::Edit { edit });
        let links = paper.join().len();
        text.push_str(&match answer.number {
            0 => format!("edit {} kept {} links {links}\n", place + 1, answer.value),
            number => format!("edit {} refused {number}\n", place + 1),
        });
    }
    if left > 0 {
        text.push_str(&format!("part {left}\n"));
    }
    for link in paper.join() {
        let (a, b, distance, amount) = (link.a, link.b, link.distance, link.amount);
        text.push_str(&format!("link {a} {b} {distance} {amount}\n"));
    }
    text
}

#[test]
fn random_inputs_as_on_paper() {
    let mut replays = 0;
    for seed in 0..400 {
        let mut random = Random::new(0x7265_706c_6179 + seed);
        let size = random.pick(&[Size::Tiny, Size::Small, Size::Small, Size::Medium]);
        let history = History::random(&mut random, size, 40);
        let edits: Vec<&[u8]> = history
            .calls
            .iter()
            .filter_map(|call| match &call.request {
                Request::Edit { edit } if edit.len() == EDIT_BYTES => Some(&edit[..]),
                _ => None,
            })
            .collect();
        let left = random.size(0, EDIT_BYTES - 1);
        let mut input = tables(&history.drawing.a, &history.drawing.b);
        input.extend(edits.concat());
        input.extend(random.bytes(left));
        assert_eq!(
            replay(&input),
            text_on_paper(&history, &edits, left),
            "seed {seed}, input {}",
            hex(&input)
        );
        replays += 1;
    }
    println!("replays compared with the paper drawing: {replays}");
}
