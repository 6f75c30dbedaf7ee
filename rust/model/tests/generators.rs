//! The generators do what they say: classes, damage and edits are what their
//! labels promise, since other tests lean on that.

use model::answer::{answer, answer_of, number_of};
use model::buffers::{first_faulty_row, is_zero, list_of, list_row};
use model::engine::{Call, Engine, Model, Request};
use model::generate::damage::*;
use model::generate::drawing::*;
use model::generate::edits::*;
use model::generate::history::History;
use model::generate::lengths::{wrong_lend, wrong_length};
use model::generate::places::FAMILIES;
use model::generate::random::Random;
use model::join::join_by_sorting;
use model::paper::PaperDrawing;
use model::report::hex;
use model::rows::Node;
use model::sizes::*;

fn any_size(random: &mut Random) -> Size {
    random.pick(&[
        Size::Tiny,
        Size::Small,
        Size::Small,
        Size::Medium,
        Size::OneFull,
    ])
}

#[test]
fn the_same_seed_gives_the_same() {
    for seed in 0..20 {
        let one = History::random(&mut Random::new(seed), Size::Small, 20);
        let two = History::random(&mut Random::new(seed), Size::Small, 20);
        assert_eq!(one, two);
    }
    // The published first words of splitmix64 from seed 0.
    let mut random = Random::new(0);
    assert_eq!(random.word(), 0xe220_a839_7b1d_cdaf);
    assert_eq!(random.word(), 0x6e78_9e6a_a1b9_65f4);
    assert_eq!(random.word(), 0x06c4_5d18_8009_454f);
}

#[test]
fn drawings_are_accepted_and_as_labelled() {
    let mut drawings = 0;
    for family in FAMILIES {
        for size in SIZES {
            for capacities in CAPACITIES {
                for numbers in NUMBERS {
                    let mut random = Random::new(drawings);
                    let drawing = Drawing::of(&mut random, family, size, capacities, numbers);
                    let what = format!("seed {drawings}\n{drawing}");
                    let (a, b) = (drawing.a.clone(), drawing.b.clone());
                    let (few, many) = (a.len().min(b.len()), a.len().max(b.len()));
                    let counts_fit = match size {
                        Size::Tiny => many <= 4,
                        Size::Small => many <= 16,
                        Size::Medium => (17..=64).contains(&few) && many <= 64,
                        Size::Any => many <= TABLE_ROWS,
                        Size::OneFull => few <= 4 && many >= TABLE_ROWS - 2,
                        Size::Full => few == TABLE_ROWS,
                    };
                    assert!(counts_fit, "{what}");
                    let most = a.iter().chain(&b).map(|node| node.capacity).max();
                    let most_fits = match capacities {
                        Capacities::One => most.unwrap_or(1) == 1,
                        Capacities::Few => most.unwrap_or(1) <= 4,
                        Capacities::Many => most.unwrap_or(1) <= CAPACITY_MAX,
                    };
                    assert!(most_fits, "{what}");
                    assert_eq!(first_faulty_row(&drawing.table_a()), None, "{what}");
                    assert_eq!(first_faulty_row(&drawing.table_b()), None, "{what}");
                    assert!(PaperDrawing::new(a, b).is_some(), "{what}");
                    drawings += 1;
                }
            }
        }
    }
    println!("drawings generated, one of each class: {drawings}");
}

#[test]
fn paper_begins_from_accepted_masters_only() {
    let good = Node::new(1, 0, 0, 1);
    let begins = |a: Vec<Node>| {
        let as_a = PaperDrawing::new(a.clone(), vec![good]).is_some();
        let as_b = PaperDrawing::new(vec![good], a).is_some();
        assert_eq!(as_a, as_b);
        as_a
    };
    let full: Vec<Node> = (1..=TABLE_ROWS as u64)
        .map(|n| Node::new(n, 0, 0, 1))
        .collect();
    let over = [&full[..], &[Node::new(NUMBER_MAX, 0, 0, 1)]].concat();
    assert!(begins(vec![]));
    assert!(begins(full));
    assert!(!begins(over));
    assert!(!begins(vec![good, good]));
    assert!(!begins(vec![Node { number: 0, ..good }]));
    assert!(!begins(vec![Node::new(0, 0, 0, 0), good]));
    assert!(!begins(vec![Node::new(0, 0, 0, 0)]));
    assert!(!begins(vec![Node {
        horizontal: POSITION_MAX + 1,
        ..good
    }]));
    assert!(!begins(vec![Node {
        capacity: CAPACITY_MAX + 1,
        ..good
    }]));
    assert!(begins(vec![good.with_sort(SORT_MAX)]));
    assert!(!begins(vec![good.with_sort(SORT_MAX + 1)]));
}

#[test]
fn sizes_and_numbers_reach_their_ends() {
    let mut random = Random::new(11);
    let mut seen = [false; TABLE_ROWS + 1];
    let (mut least, mut greatest, mut disordered) = (false, false, false);
    for _ in 0..6_000 {
        let (count_a, count_b) = Size::Any.counts(&mut random);
        seen[count_a] = true;
        seen[count_b] = true;
    }
    for _ in 0..100 {
        let drawing = Drawing::random(&mut random, Size::Small);
        let nodes = || drawing.a.iter().chain(&drawing.b);
        least |= nodes().any(|node| node.number == NUMBER_MIN);
        greatest |= nodes().any(|node| node.number == NUMBER_MAX);
        disordered |= drawing
            .a
            .windows(2)
            .any(|two| two[0].number > two[1].number);
    }
    assert!(seen.iter().all(|seen| *seen));
    assert!(least && greatest && disordered);
}

#[test]
fn wrong_lengths_are_wrong() {
    let mut random = Random::new(12);
    for stated in [TABLE_BYTES, LIST_BYTES, EDIT_BYTES, COUNTS_BYTES] {
        let wanted = [0, stated - 1, stated + 1, stated / 2, 2 * stated];
        let lengths: Vec<usize> = (0..300)
            .map(|_| wrong_length(&mut random, stated))
            .collect();
        assert!(!lengths.contains(&stated));
        assert!(wanted.iter().all(|length| lengths.contains(length)));
        let lend = wrong_lend(&mut random, stated);
        assert_ne!(lend.length(stated), stated);
        assert_eq!(lend.of(&vec![0; stated]).len(), lend.length(stated));
    }
}

#[test]
fn damaged_tables_are_faulty_where_they_say() {
    let mut once = [0; TABLE_FAULTS.len()];
    let mut often = 0;
    for seed in 0..1_500 {
        let mut random = Random::new(seed);
        let size = any_size(&mut random);
        let sound = Drawing::random(&mut random, size).table_a();
        for (kind, fault) in TABLE_FAULTS.into_iter().enumerate() {
            let mut table = sound.clone();
            let row = damage_table(&mut random, &mut table, fault);
            let what = format!("{fault:?} seed {seed}, table {}", hex(&table));
            assert_eq!(first_faulty_row(&table), row, "{what}");
            once[kind] += usize::from(row.is_some());
        }
        let mut table = sound.clone();
        let faults = damage_table_often(&mut random, &mut table, 5);
        let first = faults.iter().map(|(_, row)| *row).min();
        let what = format!("{faults:?} seed {seed}, table {}", hex(&table));
        assert_eq!(first_faulty_row(&table), first, "{what}");
        often += usize::from(faults.len() > 1);
    }
    println!("tables damaged, by fault: {once:?}, with several faults: {often}");
    assert!(once.iter().all(|times| *times > 100) && often > 100);
}

#[test]
fn damaged_lists_differ_where_they_say() {
    let mut damaged = [0; LIST_FAULTS.len()];
    for seed in 0..1_500 {
        let mut random = Random::new(seed);
        let size = any_size(&mut random);
        let drawing = Drawing::random(&mut random, size);
        let finished = list_of(&join_by_sorting(&drawing.a, &drawing.b));
        for (kind, fault) in LIST_FAULTS.into_iter().enumerate() {
            let mut list = finished.clone();
            let told = damage_list(&mut random, &mut list, fault);
            let found = (0..LIST_ROWS)
                .find(|row| list_row(&list, *row) != list_row(&finished, *row))
                .map(|row| Difference {
                    row,
                    zero_from_there: is_zero(&list[row * LINK_BYTES..]),
                });
            let what = format!("{fault:?} seed {seed}, list {}\n{drawing}", hex(&list));
            assert_eq!(told, found, "{what}");
            damaged[kind] += usize::from(told.is_some());
        }
    }
    println!("lists damaged, by fault: {damaged:?}");
    assert!(damaged.iter().all(|times| *times > 100));
}

#[test]
fn edits_are_done_or_refused_as_they_say() {
    let mut good = [0; KINDS.len()];
    let mut bad = [0; BAD_EDITS.len()];
    for seed in 0..1_000 {
        let mut random = Random::new(seed);
        let size = any_size(&mut random);
        let drawing = Drawing::random(&mut random, size);
        let (a, b): (&[Node], &[Node]) = (&drawing.a, &drawing.b);
        let list = list_of(&join_by_sorting(a, b));
        let answer_to = |edit: &[u8]| {
            let edit = edit.to_vec();
            let call = Call::whole(Request::Edit { edit });
            Model
                .run(&call, &drawing.table_a(), &drawing.table_b(), &list)
                .answer
        };
        for (place, kind) in KINDS.into_iter().enumerate() {
            if let Some(edit) = good_edit(&mut random, kind, a, b) {
                let number = number_of(answer_to(&edit.bytes()));
                assert_eq!(number, 0, "seed {seed} {edit:?}\n{drawing}");
                good[place] += 1;
            }
        }
        for (place, kind) in BAD_EDITS.into_iter().enumerate() {
            if let Some(edit) = bad_edit(&mut random, kind, a, b) {
                let expected = answer_of(kind.refusal().number(), 0);
                assert_eq!(expected, answer(Err(kind.refusal())));
                let given = answer_to(&edit.bytes());
                assert_eq!(given, expected, "seed {seed} {kind:?} {edit:?}\n{drawing}");
                bad[place] += 1;
            }
        }
    }
    println!("edits done, by kind: {good:?}, refused, by bad field: {bad:?}");
    assert!(good.iter().chain(&bad).all(|times| *times > 20));
}
