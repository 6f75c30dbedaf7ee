//! Edits that change most links, one after the other: those that took longest before a repair counted its work.

use model::generate::places::near;
use model::generate::random::Random;
use model::join::squared_distance;
use model::rows::{Edit, Node};
use model::sizes::*;

use crate::peer::Peer;
use crate::report::{head, ratio, row, whole};
use crate::same::Same;
use crate::shapes::Drawing;
use crate::trial::{Times, Trial};
use differential::Archive;

/// Runs of each.
const RUNS: usize = 51;

/// A row for each, at full size: the edit, the same by the peer, and what the edit is measured by.
pub fn table() -> String {
    let mut table = head(&[
        "Edit",
        "engine, µs",
        "same, µs",
        "a check (Bands), µs",
        "a join (Pair), µs",
        "engine / (check + 1.5 joins)",
    ]);
    for (name, trial) in hard(TABLE_ROWS) {
        let case = trial.case(&mut Archive);
        let engine = Times::of(&case, &mut Archive, RUNS);
        let same = Times::of(&case, &mut Peer::<Same>::default(), RUNS);
        let times = [engine.edit, same.edit, engine.check, engine.join].map(whole);
        let [engine_edit, same_edit, check, join] = times.each_ref();
        let share = ratio(engine.by_allowed());
        table += &row(&[name, engine_edit, same_edit, check, join, &share]);
    }
    table
}

/// A name and a trial for each, with this many nodes in a master, or one less.
pub fn hard(count: usize) -> [(&'static str, Trial); 2] {
    [
        ("an arrival ahead of a line", ahead_of_a_line(count)),
        ("a capacity in a far cluster", in_a_far_cluster(count)),
    ]
}

/// The light stand close together on a line, the bold far from them and from each other on the same line. A light node of
/// the greatest capacity arrives ahead of all light ones: each of these loses its partner and takes one farther on.
fn ahead_of_a_line(count: usize) -> Trial {
    let light = (1..count as i64).map(|i| Node::new(i as u64, -15_000 - i + 1, 0, 1));
    let bold = (0..count as i64).map(|j| Node::new(j as u64 + 1, 32 * j - 100, 0, 1));
    let new = Node::new(count as u64, -14_999, 0, CAPACITY_MAX);
    Trial {
        drawing: Drawing {
            a: light.collect(),
            b: bold.collect(),
        },
        edit: Edit::arrival(MASTER_A, new),
    }
}

/// The bold in a cluster, the light along a line far from it. The bold node that is linked first gets the greatest capacity:
/// all others then have partners farther on.
fn in_a_far_cluster(count: usize) -> Trial {
    let random = &mut Random::new(0);
    let number = |k: usize| k as u64 + 1;
    let light = |k: usize| Node::new(number(k), 12_000, 30 * k as i64, 1);
    let bold = |k: usize| {
        let (across, up) = near(random, (-12_000, -500), 50);
        Node::new(number(k), across, up, 1)
    };
    let bold: Vec<Node> = (0..count).map(bold).collect();
    let first = bold
        .iter()
        .min_by_key(|node| squared_distance(node, &light(0)));
    Trial {
        edit: Edit::new_capacity(MASTER_B, first.map_or(1, |node| node.number), CAPACITY_MAX),
        drawing: Drawing {
            a: (0..count).map(light).collect(),
            b: bold,
        },
    }
}
