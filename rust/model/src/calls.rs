//! The five calls on lent buffers of any length and content (document 01,
//! Calls; Refused, by the place of the check).
//!
//! Every call first tries the places from the top and writes only when none
//! fits, so that a refused call leaves each lent byte as it was.

use crate::answer::{answer, Refusal};
use crate::buffers::*;
use crate::join::join_by_sorting;
use crate::rows::{capacity_in_range, position_in_range, sort_in_range, Edit, Link};
use crate::sizes::*;

pub fn pair(a: &[u8], b: &[u8], list: &mut [u8]) -> u32 {
    answer(try_pair(a, b, list))
}

pub fn step(a: &[u8], b: &[u8], list: &mut [u8]) -> u32 {
    answer(try_step(a, b, list))
}

pub fn edit(a: &mut [u8], b: &mut [u8], list: &mut [u8], edit: &[u8]) -> u32 {
    answer(try_edit(a, b, list, edit))
}

pub fn spare(
    a: &[u8],
    b: &[u8],
    list: &[u8],
    master: MasterArgument,
    number: NumberArgument,
) -> u32 {
    answer(try_spare(a, b, list, u64::from(master), u64::from(number)))
}

pub fn bands(a: &[u8], b: &[u8], list: &[u8], counts: &mut [u8]) -> u32 {
    answer(try_bands(a, b, list, counts))
}

fn try_pair(a: &[u8], b: &[u8], list: &mut [u8]) -> Result<u64, Refusal> {
    check_lengths(a, b, list)?;
    check_tables(a, b)?;
    let links = finished_links(a, b);
    list.copy_from_slice(&list_of(&links));
    Ok(links.len() as u64)
}

fn try_step(a: &[u8], b: &[u8], list: &mut [u8]) -> Result<u64, Refusal> {
    check_lengths(a, b, list)?;
    check_tables(a, b)?;
    let finished = list_of(&finished_links(a, b));
    check_leading_part(list, &finished)?;
    match first_difference(list, &finished) {
        Some(row) => {
            list_row_mut(list, row).copy_from_slice(list_row(&finished, row));
            Ok(1)
        }
        None => Ok(0),
    }
}

fn try_edit(a: &mut [u8], b: &mut [u8], list: &mut [u8], edit: &[u8]) -> Result<u64, Refusal> {
    check_lengths(a, b, list)?;
    check_length(edit, EDIT_BYTES)?;
    check_tables(a, b)?;
    check_finished(a, b, list)?;
    let edit = Edit::read(edit);
    check_kind(&edit)?;
    check_master(edit.master)?;
    check_fields(&edit)?;
    let table = if edit.master == MASTER_A {
        &mut *a
    } else {
        &mut *b
    };
    match edit.kind {
        KIND_ARRIVAL => check_absent(table, edit.number)?,
        _ => check_present(table, edit.number)?,
    }
    if edit.kind == KIND_ARRIVAL {
        check_room(table)?;
    }

    change_table(table, &edit);
    let renewed = list_of(&finished_links(a, b));
    let kept = rows_kept(list, &renewed);
    let rest = kept * LINK_BYTES;
    list[rest..].copy_from_slice(&renewed[rest..]);
    Ok(kept as u64)
}

fn try_spare(a: &[u8], b: &[u8], list: &[u8], master: u64, number: u64) -> Result<u64, Refusal> {
    check_lengths(a, b, list)?;
    check_tables(a, b)?;
    check_finished(a, b, list)?;
    check_master(master)?;
    check_number(number)?;
    let table = if master == MASTER_A { a } else { b };
    check_present(table, number)?;

    let mut spare = 0;
    for node in nodes_of(table) {
        if node.number == number {
            spare = node.capacity;
        }
    }
    for link in links_of(list) {
        let named = if master == MASTER_A { link.a } else { link.b };
        if named == number {
            spare -= link.amount;
        }
    }
    Ok(spare)
}

fn try_bands(a: &[u8], b: &[u8], list: &[u8], counts: &mut [u8]) -> Result<u64, Refusal> {
    check_lengths(a, b, list)?;
    check_length(counts, COUNTS_BYTES)?;
    check_tables(a, b)?;
    check_finished(a, b, list)?;

    let links = links_of(list);
    for k in 0..BANDS {
        let in_band = links
            .iter()
            .filter(|link| binary_digits(link.distance) == k);
        count_field(k).write(counts, in_band.count() as u64);
    }
    Ok(0)
}

fn binary_digits(distance: u64) -> usize {
    (u64::BITS - distance.leading_zeros()) as usize
}

fn finished_links(a: &[u8], b: &[u8]) -> Vec<Link> {
    join_by_sorting(&nodes_of(a), &nodes_of(b))
}

// The places, in their order.

fn check_lengths(a: &[u8], b: &[u8], list: &[u8]) -> Result<(), Refusal> {
    check_length(a, TABLE_BYTES)?;
    check_length(b, TABLE_BYTES)?;
    check_length(list, LIST_BYTES)
}

fn check_length(buffer: &[u8], stated: usize) -> Result<(), Refusal> {
    refuse_if(buffer.len() != stated, Refusal::Length)
}

fn check_tables(a: &[u8], b: &[u8]) -> Result<(), Refusal> {
    if let Some(row) = first_faulty_row(a) {
        return Err(Refusal::TableA { row });
    }
    if let Some(row) = first_faulty_row(b) {
        return Err(Refusal::TableB { row });
    }
    Ok(())
}

/// The list place of Step: a leading part of the finished list passes.
fn check_leading_part(list: &[u8], finished: &[u8]) -> Result<(), Refusal> {
    match first_difference(list, finished) {
        Some(row) if !is_zero(&list[row * LINK_BYTES..]) => Err(Refusal::ListStray { row }),
        _ => Ok(()),
    }
}

/// The list places of Edit, Spare and Bands: only the finished list passes.
fn check_finished(a: &[u8], b: &[u8], list: &[u8]) -> Result<(), Refusal> {
    let finished = list_of(&finished_links(a, b));
    check_leading_part(list, &finished)?;
    match first_difference(list, &finished) {
        Some(row) => Err(Refusal::ListUnfinished { row }),
        None => Ok(()),
    }
}

fn check_kind(edit: &Edit) -> Result<(), Refusal> {
    let kinds = [KIND_ARRIVAL, KIND_DEPARTURE, KIND_MOVE, KIND_CAPACITY];
    refuse_if(!kinds.contains(&edit.kind), Refusal::Kind)
}

fn check_master(master: u64) -> Result<(), Refusal> {
    refuse_if(master != MASTER_A && master != MASTER_B, Refusal::Master)
}

fn check_number(number: u64) -> Result<(), Refusal> {
    refuse_if(number == 0, Refusal::Field)
}

fn check_fields(edit: &Edit) -> Result<(), Refusal> {
    check_number(edit.number)?;
    let positions_zero = edit.horizontal == 0 && edit.vertical == 0;
    let positions_good = position_in_range(edit.horizontal) && position_in_range(edit.vertical);
    // Both bytes of the capacity field (document 02, P2).
    let capacity_zero = edit.capacity == 0 && edit.sort == 0;
    let capacity_good = capacity_in_range(edit.capacity) && sort_in_range(edit.sort);
    let good = match edit.kind {
        KIND_ARRIVAL => positions_good && capacity_good,
        KIND_DEPARTURE => positions_zero && capacity_zero,
        KIND_MOVE => positions_good && capacity_zero,
        _ => positions_zero && capacity_good,
    };
    refuse_if(!good, Refusal::Field)
}

fn check_absent(table: &[u8], number: u64) -> Result<(), Refusal> {
    refuse_if(row_of(table, number).is_some(), Refusal::Presence)
}

fn check_present(table: &[u8], number: u64) -> Result<(), Refusal> {
    refuse_if(row_of(table, number).is_none(), Refusal::Presence)
}

fn check_room(table: &[u8]) -> Result<(), Refusal> {
    refuse_if(nodes_of(table).len() == TABLE_ROWS, Refusal::Full)
}

fn refuse_if(condition: bool, refusal: Refusal) -> Result<(), Refusal> {
    if condition {
        Err(refusal)
    } else {
        Ok(())
    }
}

/// The first row in which two lists of the stated length differ.
fn first_difference(list: &[u8], other: &[u8]) -> Option<usize> {
    (0..LIST_ROWS).find(|row| list_row(list, *row) != list_row(other, *row))
}

/// The number of leading links that both lists have: zero rows are no links.
fn rows_kept(old: &[u8], new: &[u8]) -> usize {
    (0..LIST_ROWS)
        .take_while(|row| list_row(old, *row) == list_row(new, *row))
        .take_while(|row| !is_zero(list_row(old, *row)))
        .count()
}

fn row_of(table: &[u8], number: u64) -> Option<usize> {
    (0..TABLE_ROWS).find(|row| NODE_NUMBER.read(table_row(table, *row)) == number)
}

/// An edit that passed all places, done on its table alone.
fn change_table(table: &mut [u8], edit: &Edit) {
    match (edit.kind, row_of(table, edit.number)) {
        (KIND_ARRIVAL, _) => {
            let free = nodes_of(table).len();
            table_row_mut(table, free).copy_from_slice(&edit.node().bytes());
        }
        (KIND_DEPARTURE, Some(row)) => {
            table.copy_within((row + 1) * NODE_BYTES.., row * NODE_BYTES);
            table_row_mut(table, TABLE_ROWS - 1).fill(0);
        }
        (KIND_MOVE, Some(row)) => {
            NODE_HORIZONTAL.write_signed(table_row_mut(table, row), edit.horizontal);
            NODE_VERTICAL.write_signed(table_row_mut(table, row), edit.vertical);
        }
        (_, Some(row)) => {
            NODE_CAPACITY.write(table_row_mut(table, row), edit.capacity);
            NODE_SORT.write(table_row_mut(table, row), edit.sort);
        }
        (_, None) => unreachable!("the presence of the node was checked"),
    }
}
