//! What a reader over one lent table answers (document 01, Calls).

use crate::buffers::{first_faulty_row, nodes_of};
use crate::rows::Node;
use crate::sizes::TABLE_BYTES;

/// The nodes in row order; none of a table of a wrong length or with a faulty row.
pub fn nodes(table: &[u8]) -> Vec<Node> {
    if table.len() != TABLE_BYTES || first_faulty_row(table).is_some() {
        return Vec::new();
    }
    nodes_of(table)
}

/// The node of this number, if the reader gives one.
pub fn find(table: &[u8], number: u64) -> Option<Node> {
    nodes(table).into_iter().find(|node| node.number == number)
}
