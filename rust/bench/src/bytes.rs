//! Rows to nodes and links to a list: the part of the work that both peers share.

use model::sizes::*;

#[derive(Clone, Copy, Debug, PartialEq, Eq)]
pub struct Node {
    pub x: i32,
    pub y: i32,
    pub number: u16,
    /// What is left of the capacity.
    pub left: u16,
}

impl Node {
    /// The squared distance; at most 2 to the 31, so it fits.
    pub fn distance(&self, other: &Node) -> u32 {
        let (across, up) = (self.x - other.x, self.y - other.y);
        across.pow(2) as u32 + up.pow(2) as u32
    }

    pub fn same_place(&self, other: &Node) -> bool {
        (self.x, self.y) == (other.x, other.y)
    }

    /// The node of a row, and its sort.
    pub fn read(row: &[u8]) -> (Node, u8) {
        let node = Node {
            number: u16_at(row, 0),
            x: i32::from(u16_at(row, 2) as i16),
            y: i32::from(u16_at(row, 4) as i16),
            left: u16::from(row[6]),
        };
        (node, row[7])
    }

    pub fn in_range(&self) -> bool {
        let field = POSITION_MIN as i32..=POSITION_MAX as i32;
        let capacities = CAPACITY_MIN as u16..=CAPACITY_MAX as u16;
        field.contains(&self.x) && field.contains(&self.y) && capacities.contains(&self.left)
    }
}

fn u16_at(row: &[u8], at: usize) -> u16 {
    u16::from_le_bytes([row[at], row[at + 1]])
}

/// Distance, A number and B number of a link packed into one number, so that
/// pair order is the order of these numbers; and the amount.
pub type Link = (u64, u16);

pub fn link(a: &Node, b: &Node, amount: u16) -> Link {
    let key = u64::from(a.distance(b)) << 32 | u64::from(a.number) << 16 | u64::from(b.number);
    (key, amount)
}

/// The squared distance, the A number and the B number of a link.
pub fn parts((key, _): Link) -> (u32, u16, u16) {
    ((key >> 32) as u32, (key >> 16) as u16, key as u16)
}

pub fn link_of(row: &[u8]) -> Link {
    let distance = u32::from(u16_at(row, 6)) << 16 | u32::from(u16_at(row, 4));
    let numbers = u64::from(u16_at(row, 0)) << 16 | u64::from(u16_at(row, 2));
    (u64::from(distance) << 32 | numbers, u16_at(row, 8))
}

fn row_of((key, amount): Link) -> [u8; LINK_BYTES] {
    let [b0, b1, a0, a1, d0, d1, d2, d3] = key.to_le_bytes();
    let [m0, m1] = amount.to_le_bytes();
    [a0, a1, b0, b1, d0, d1, d2, d3, m0, m1]
}

/// Rows of a list that have links, as long as these stand first.
pub fn rows(list: &[u8]) -> impl Iterator<Item = Link> + '_ {
    let links = list.chunks_exact(LINK_BYTES).map(link_of);
    links.take_while(|link| parts(*link).1 != 0)
}

/// How many leading links the list and these have in common.
pub fn common(list: &[u8], links: &[Link]) -> usize {
    let rows = list.chunks_exact(LINK_BYTES).zip(links);
    rows.take_while(|(row, link)| **row == row_of(**link))
        .count()
}

/// The first row in which the list differs from that of the links.
pub fn difference(list: &[u8], links: &[Link]) -> Option<usize> {
    let same = common(list, links);
    if same < links.len() {
        return Some(same);
    }
    let mut rest = list[same * LINK_BYTES..].chunks_exact(LINK_BYTES);
    let stray = rest.position(|row| row != [0; LINK_BYTES]);
    stray.map(|row| same + row)
}

pub fn write_row(list: &mut [u8], row: usize, link: Link) {
    list[row * LINK_BYTES..(row + 1) * LINK_BYTES].copy_from_slice(&row_of(link));
}

/// Writes the links from this one on into their rows, then zeros.
pub fn write_from(list: &mut [u8], links: &[Link], from: usize) {
    let (rows, rest) = list.split_at_mut(links.len() * LINK_BYTES);
    let rows = rows.chunks_exact_mut(LINK_BYTES).zip(links).skip(from);
    for (row, link) in rows {
        row.copy_from_slice(&row_of(*link));
    }
    rest.fill(0);
}

/// Puts the items in the place of those before, in the memory that is there.
pub fn refill<T>(column: &mut Vec<T>, items: impl Iterator<Item = T>) {
    column.clear();
    column.extend(items);
}
