//! Whole buffers: tables and lists as rows, and the faulty rows of a table
//! (document 01, Rows and buffers; Refused, by the place of the check).

use crate::rows::{capacity_in_range, position_in_range, sort_in_range, Link, Node};
use crate::sizes::*;

pub fn is_zero(bytes: &[u8]) -> bool {
    bytes.iter().all(|byte| *byte == 0)
}

pub fn table_row(table: &[u8], row: usize) -> &[u8] {
    &table[row * NODE_BYTES..(row + 1) * NODE_BYTES]
}

pub fn table_row_mut(table: &mut [u8], row: usize) -> &mut [u8] {
    &mut table[row * NODE_BYTES..(row + 1) * NODE_BYTES]
}

pub fn list_row(list: &[u8], row: usize) -> &[u8] {
    &list[row * LINK_BYTES..(row + 1) * LINK_BYTES]
}

pub fn list_row_mut(list: &mut [u8], row: usize) -> &mut [u8] {
    &mut list[row * LINK_BYTES..(row + 1) * LINK_BYTES]
}

/// Whether this row of a table of the stated length is faulty.
pub fn is_faulty(table: &[u8], row: usize) -> bool {
    let this = Node::read(table_row(table, row));
    if this.number == 0 {
        return !is_zero(table_row(table, row));
    }
    let out_of_range = !position_in_range(this.horizontal)
        || !position_in_range(this.vertical)
        || !capacity_in_range(this.capacity)
        || !sort_in_range(this.sort);
    let mut earlier = (0..row).map(|r| NODE_NUMBER.read(table_row(table, r)));
    out_of_range || earlier.any(|number| number == this.number || number == 0)
}

pub fn first_faulty_row(table: &[u8]) -> Option<usize> {
    (0..TABLE_ROWS).find(|row| is_faulty(table, *row))
}

/// The nodes of an accepted table, in row order.
pub fn nodes_of(table: &[u8]) -> Vec<Node> {
    (0..TABLE_ROWS)
        .map(|row| Node::read(table_row(table, row)))
        .filter(|node| node.number != 0)
        .collect()
}

/// The links of a list that has its links first, in row order.
pub fn links_of(list: &[u8]) -> Vec<Link> {
    (0..LIST_ROWS)
        .map(|row| list_row(list, row))
        .take_while(|row| !is_zero(row))
        .map(Link::read)
        .collect()
}

/// The table with these nodes in order, then zero rows.
pub fn table_of(nodes: &[Node]) -> Vec<u8> {
    let mut table = vec![0; TABLE_BYTES];
    for (row, node) in nodes.iter().enumerate() {
        table_row_mut(&mut table, row).copy_from_slice(&node.bytes());
    }
    table
}

/// The list with these links in order, then zero rows.
pub fn list_of(links: &[Link]) -> Vec<u8> {
    let mut list = vec![0; LIST_BYTES];
    for (row, link) in links.iter().enumerate() {
        list_row_mut(&mut list, row).copy_from_slice(&link.bytes());
    }
    list
}
