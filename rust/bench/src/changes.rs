//! Random changes of a trial, for a search: the drawing stays sound, and the edit one that is done.

use std::ops::Range;

use model::generate::edits::{good_edit, unknown_number, KINDS};
use model::generate::places::{anywhere, near, Place};
use model::generate::random::Random;
use model::generate::sorts::BOTH_SORTS;
use model::rows::{Edit, Node};
use model::sizes::*;

use crate::shapes::Drawing;
use crate::trial::Trial;

/// An edit of the drawing that is done, half of the time with the greatest capacity; the drawing has a node.
pub fn any_edit(random: &mut Random, drawing: &Drawing) -> Edit {
    loop {
        let kind = random.pick(&KINDS);
        if let Some(mut edit) = good_edit(random, kind, &drawing.a, &drawing.b) {
            if edit.capacity > 0 && random.once_in(2) {
                edit.capacity = CAPACITY_MAX;
            }
            return edit;
        }
    }
}

/// The trial with something in it changed.
pub fn changed(random: &mut Random, trial: &Trial) -> Trial {
    let mut new = trial.clone();
    let changes = [
        change_edit,
        change_edited,
        change_capacities,
        change_sorts,
        change_places,
        change_places,
        shift_master,
        change_numbers,
        change_count,
    ];
    for _ in 0..random.size(1, 3) {
        random.pick(&changes)(random, &mut new);
    }
    if !is_done(&new) {
        new.edit = any_edit(random, &new.drawing);
    }
    new
}

/// Whether the edit is not refused; its fields are right.
fn is_done(trial: &Trial) -> bool {
    let nodes = match trial.edit.master {
        MASTER_A => &trial.drawing.a,
        _ => &trial.drawing.b,
    };
    let there = nodes.iter().any(|node| node.number == trial.edit.number);
    match trial.edit.kind {
        KIND_ARRIVAL => !there && nodes.len() < TABLE_ROWS,
        _ => there,
    }
}

fn change_edit(random: &mut Random, trial: &mut Trial) {
    trial.edit = any_edit(random, &trial.drawing);
}

/// Another place or another capacity, where the edit has one.
fn change_edited(random: &mut Random, trial: &mut Trial) {
    let edit = &mut trial.edit;
    if matches!(edit.kind, KIND_ARRIVAL | KIND_MOVE) {
        let off = random.pick(&[1, 30, 1_000, 30_000]);
        (edit.horizontal, edit.vertical) = near(random, (edit.horizontal, edit.vertical), off);
    }
    if matches!(edit.kind, KIND_ARRIVAL | KIND_CAPACITY) && random.once_in(2) {
        edit.capacity = some_capacity(random);
    }
}

fn some_capacity(random: &mut Random) -> u64 {
    let any = random.unsigned(CAPACITY_MIN, CAPACITY_MAX);
    random.pick(&[CAPACITY_MIN, CAPACITY_MIN + 1, any, CAPACITY_MAX])
}

fn some_master<'a>(random: &mut Random, drawing: &'a mut Drawing) -> &'a mut Vec<Node> {
    match random.once_in(2) {
        true => &mut drawing.a,
        false => &mut drawing.b,
    }
}

/// One node, some that follow each other, or all.
fn some_rows(random: &mut Random, count: usize) -> Range<usize> {
    let most = random.pick(&[1, 8, 64, count]).min(count);
    let size = random.size(most.min(1), most);
    let first = random.size(0, count - size);
    first..first + size
}

fn change_capacities(random: &mut Random, trial: &mut Trial) {
    let nodes = some_master(random, &mut trial.drawing);
    let rows = some_rows(random, nodes.len());
    let capacity = random.once_in(2).then(|| some_capacity(random));
    for node in &mut nodes[rows] {
        node.capacity = capacity.unwrap_or_else(|| some_capacity(random));
    }
}

/// Some nodes of one sort, or each of either.
fn change_sorts(random: &mut Random, trial: &mut Trial) {
    let nodes = some_master(random, &mut trial.drawing);
    let rows = some_rows(random, nodes.len());
    let sort = random.once_in(2).then(|| random.pick(&BOTH_SORTS));
    for node in &mut nodes[rows] {
        node.sort = sort.unwrap_or_else(|| random.pick(&BOTH_SORTS));
    }
}

/// Some nodes go to a cluster, to a line, or each a bit away.
fn change_places(random: &mut Random, trial: &mut Trial) {
    let centre = match random.once_in(2) {
        true => anywhere(random),
        false => place_of_one(random, &trial.drawing),
    };
    let nodes = some_master(random, &mut trial.drawing);
    let rows = some_rows(random, nodes.len());
    let off = random.pick(&[0, 1, 10, 100, 2_000]);
    let (across, up) = near(random, (0, 0), random.clone().pick(&[1, 32, 300]));
    let layout = random.below(3);
    for (step, node) in (0..).zip(&mut nodes[rows]) {
        let from = match layout {
            0 => centre,
            1 => (centre.0 + across * step, centre.1 + up * step),
            _ => (node.horizontal, node.vertical),
        };
        (node.horizontal, node.vertical) = near(random, from, off);
    }
}

fn place_of_one(random: &mut Random, drawing: &Drawing) -> Place {
    let nodes = if random.once_in(2) {
        &drawing.a
    } else {
        &drawing.b
    };
    match nodes.is_empty() {
        true => (0, 0),
        false => {
            let node = random.pick(nodes);
            (node.horizontal, node.vertical)
        }
    }
}

/// A master goes elsewhere, or comes closer together.
fn shift_master(random: &mut Random, trial: &mut Trial) {
    let nodes = some_master(random, &mut trial.drawing);
    let (across, up) = near(random, (0, 0), random.clone().pick(&[10, 300, 10_000]));
    let [wide, high] = [(); 2].map(|()| random.pick(&[1, 1, 1, 2, 8]));
    for node in nodes {
        let place = (node.horizontal / wide + across, node.vertical / high + up);
        (node.horizontal, node.vertical) = near(random, place, 0);
    }
}

/// The numbers of a master change hands, or rise or fall with its rows.
fn change_numbers(random: &mut Random, trial: &mut Trial) {
    let nodes = some_master(random, &mut trial.drawing);
    let mut numbers: Vec<u64> = nodes.iter().map(|node| node.number).collect();
    numbers.sort_unstable();
    match random.below(3) {
        0 => numbers.reverse(),
        1 => random.shuffle(&mut numbers),
        _ => {}
    }
    for (node, number) in nodes.iter_mut().zip(numbers) {
        node.number = number;
    }
}

/// A master loses some nodes, or gets some beside others.
fn change_count(random: &mut Random, trial: &mut Trial) {
    let nodes = some_master(random, &mut trial.drawing);
    if random.once_in(4) && nodes.len() > 1 {
        let size = random.size(1, (nodes.len() - 1).min(32));
        nodes.truncate(nodes.len() - size);
        return;
    }
    for _ in 0..random.size(0, 64.min(TABLE_ROWS - nodes.len())) {
        let like = random.pick(nodes);
        let (horizontal, vertical) = near(random, (like.horizontal, like.vertical), 30);
        let number = unknown_number(random, nodes);
        nodes.push(Node {
            number,
            horizontal,
            vertical,
            ..like
        });
    }
}
