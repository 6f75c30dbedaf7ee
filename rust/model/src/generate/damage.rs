//! Damage to accepted tables and finished lists, with the row at fault, which
//! follows from how the damage was done and not from a check of the result.

use super::edits::{bad_capacity, bad_position, bad_sort, unknown_number};
use super::random::Random;
use super::sorts::BOTH_SORTS;
use crate::buffers::*;
use crate::rows::Node;
use crate::sizes::*;

/// A way in which a row of a table is faulty.
#[derive(Clone, Copy, Debug, PartialEq, Eq, PartialOrd, Ord)]
pub enum TableFault {
    Horizontal,
    Vertical,
    Capacity,
    /// A sort that no node has, the capacity as it was.
    Sort,
    /// The number of an earlier row.
    Repeated,
    /// The number 0 in a row that is not zero.
    NumberZero,
    /// A row ahead of it has become zero.
    AfterGap,
    /// A sound node, but with zero rows between the last node and it.
    Late,
    /// One byte in a row behind the nodes.
    StrayByte,
}

pub const TABLE_FAULTS: [TableFault; 9] = [
    TableFault::Horizontal,
    TableFault::Vertical,
    TableFault::Capacity,
    TableFault::Sort,
    TableFault::Repeated,
    TableFault::NumberZero,
    TableFault::AfterGap,
    TableFault::Late,
    TableFault::StrayByte,
];

/// Puts one fault into an accepted table, at a random place. Gives the first
/// faulty row; none, and nothing changed, if the table has no place for it.
pub fn damage_table(random: &mut Random, table: &mut [u8], fault: TableFault) -> Option<usize> {
    let row = place_for(random, nodes_of(table).len(), fault)?;
    put_fault(random, table, fault, row);
    Some(row)
}

/// Puts up to so many faults into an accepted table. Gives them with their
/// rows; the least of these rows is the first faulty one.
pub fn damage_table_often(
    random: &mut Random,
    table: &mut [u8],
    faults: usize,
) -> Vec<(TableFault, usize)> {
    let nodes = nodes_of(table).len();
    let mut put: Vec<(TableFault, usize)> = Vec::new();
    for _ in 0..faults {
        let fault = random.pick(&TABLE_FAULTS);
        // A fault touches its row and at most the one ahead of it: rows that
        // are not neighbours keep each other's faults as they are.
        let apart = |row: usize| put.iter().all(|(_, other)| row.abs_diff(*other) > 1);
        match place_for(random, nodes, fault) {
            Some(row) if apart(row) => put.push((fault, row)),
            _ => {}
        }
    }
    // Later rows first, since a fault may lean on the rows ahead of its own.
    put.sort_by_key(|(_, row)| std::cmp::Reverse(*row));
    for (fault, row) in &put {
        put_fault(random, table, *fault, *row);
    }
    put
}

fn place_for(random: &mut Random, nodes: usize, fault: TableFault) -> Option<usize> {
    let (low, end) = match fault {
        TableFault::Repeated | TableFault::AfterGap => (1, nodes),
        TableFault::Late => (nodes + 1, TABLE_ROWS),
        TableFault::StrayByte => (nodes, TABLE_ROWS),
        _ => (0, nodes),
    };
    (low < end).then(|| random.size(low, end - 1))
}

fn put_fault(random: &mut Random, table: &mut [u8], fault: TableFault, row: usize) {
    let nodes = nodes_of(table);
    let earlier = random.size(0, row.max(1) - 1);
    let earlier_number = NODE_NUMBER.read(table_row(table, earlier));
    let this = table_row_mut(table, row);
    match fault {
        TableFault::Horizontal => NODE_HORIZONTAL.write_signed(this, bad_position(random)),
        TableFault::Vertical => NODE_VERTICAL.write_signed(this, bad_position(random)),
        TableFault::Capacity => NODE_CAPACITY.write(this, bad_capacity(random)),
        TableFault::Sort => NODE_SORT.write(this, bad_sort(random)),
        TableFault::Repeated => NODE_NUMBER.write(this, earlier_number),
        TableFault::NumberZero => NODE_NUMBER.write(this, 0),
        TableFault::AfterGap => table_row_mut(table, row - 1).fill(0),
        TableFault::Late => {
            let number = unknown_number(random, &nodes);
            let node = Node::new(number, 0, 0, CAPACITY_MIN).with_sort(random.pick(&BOTH_SORTS));
            this.copy_from_slice(&node.bytes());
        }
        TableFault::StrayByte => this[random.size(0, NODE_BYTES - 1)] = some_byte(random),
    }
}

/// A way in which a list is not the finished one.
#[derive(Clone, Copy, Debug, PartialEq, Eq, PartialOrd, Ord)]
pub enum ListFault {
    /// One byte of a link.
    Byte,
    /// A link taken out, the later ones closed up.
    Removed,
    /// Two links in each other's row.
    Exchanged,
    /// Zeros from some link on.
    Truncated,
    /// One byte behind the links.
    StrayByte,
    /// A link that is not the last made zero.
    Zeroed,
    /// An amount one more or one less.
    Amount,
    /// Random bytes all over.
    Random,
}

pub const LIST_FAULTS: [ListFault; 8] = [
    ListFault::Byte,
    ListFault::Removed,
    ListFault::Exchanged,
    ListFault::Truncated,
    ListFault::StrayByte,
    ListFault::Zeroed,
    ListFault::Amount,
    ListFault::Random,
];

/// Where a damaged list first differs from the finished one.
#[derive(Clone, Copy, Debug, PartialEq, Eq)]
pub struct Difference {
    pub row: usize,
    /// Whether all its bytes from that row on are zero.
    pub zero_from_there: bool,
}

/// Damages a finished list at a random place. Gives where it now differs; none,
/// and nothing changed, if the list has no place for it.
pub fn damage_list(random: &mut Random, list: &mut [u8], fault: ListFault) -> Option<Difference> {
    let links = links_of(list).len();
    let (low, end) = match fault {
        ListFault::StrayByte => (links, LIST_ROWS),
        ListFault::Exchanged | ListFault::Zeroed => (0, links.max(1) - 1),
        ListFault::Random => (0, 1),
        _ => (0, links),
    };
    if low >= end {
        return None;
    }
    let row = random.size(low, end - 1);
    let start = row * LINK_BYTES;
    match fault {
        ListFault::Byte | ListFault::StrayByte => {
            // Two numbers of a link are not zero, so one byte leaves it so.
            list[start + random.size(0, LINK_BYTES - 1)] ^= some_byte(random);
        }
        ListFault::Removed => {
            list.copy_within(start + LINK_BYTES.., start);
            list_row_mut(list, LIST_ROWS - 1).fill(0);
        }
        ListFault::Exchanged => {
            let other = random.size(row + 1, links - 1);
            let kept = list_row(list, row).to_vec();
            list.copy_within(other * LINK_BYTES..(other + 1) * LINK_BYTES, start);
            list_row_mut(list, other).copy_from_slice(&kept);
        }
        ListFault::Truncated => list[start..].fill(0),
        ListFault::Zeroed => list_row_mut(list, row).fill(0),
        ListFault::Amount => {
            let this = list_row_mut(list, row);
            let amount = LINK_AMOUNT.read(this);
            LINK_AMOUNT.write(this, random.pick(&[amount - 1, amount + 1]));
        }
        ListFault::Random => {
            let first = list[0];
            list.copy_from_slice(&random.bytes(LIST_BYTES));
            // Its first row differs for certain, and has a byte for certain.
            list[0] = if first == 1 { 2 } else { 1 };
        }
    }
    let last = row + 1 == links;
    let zero_from_there = fault == ListFault::Truncated || (fault == ListFault::Removed && last);
    Some(Difference {
        row,
        zero_from_there,
    })
}

/// Any byte but zero.
fn some_byte(random: &mut Random) -> u8 {
    random.unsigned(1, u64::from(u8::MAX)) as u8
}
