//! Fields and rows: how nodes, links and edits stand in bytes (document 01,
//! Rows and buffers; document 02, P2).

use crate::sizes::*;

impl Field {
    /// Little-endian, unsigned.
    pub fn read(self, row: &[u8]) -> u64 {
        let bytes = &row[self.offset..self.offset + self.width];
        let mut value = 0;
        for (place, byte) in bytes.iter().enumerate() {
            value |= u64::from(*byte) << (BITS_PER_BYTE * place);
        }
        value
    }

    /// Little-endian, two's complement.
    pub fn read_signed(self, row: &[u8]) -> i64 {
        let unused = u64::BITS as usize - BITS_PER_BYTE * self.width;
        ((self.read(row) << unused) as i64) >> unused
    }

    /// Writes the low bytes of the value; callers keep values within the width.
    pub fn write(self, row: &mut [u8], value: u64) {
        for place in 0..self.width {
            row[self.offset + place] = (value >> (BITS_PER_BYTE * place)) as u8;
        }
    }

    pub fn write_signed(self, row: &mut [u8], value: i64) {
        self.write(row, value as u64);
    }
}

#[derive(Clone, Copy, Debug, PartialEq, Eq)]
pub struct Node {
    pub number: u64,
    pub horizontal: i64,
    pub vertical: i64,
    pub capacity: u64,
    pub sort: u64,
}

impl Node {
    /// An on-curve node.
    pub fn new(number: u64, horizontal: i64, vertical: i64, capacity: u64) -> Node {
        Node {
            number,
            horizontal,
            vertical,
            capacity,
            sort: SORT_ON_CURVE,
        }
    }

    pub fn off_curve(number: u64, horizontal: i64, vertical: i64, capacity: u64) -> Node {
        Node::new(number, horizontal, vertical, capacity).with_sort(SORT_OFF_CURVE)
    }

    /// The same node of this sort, which may be one that no node has.
    pub fn with_sort(self, sort: u64) -> Node {
        Node { sort, ..self }
    }

    pub fn read(row: &[u8]) -> Node {
        Node {
            number: NODE_NUMBER.read(row),
            horizontal: NODE_HORIZONTAL.read_signed(row),
            vertical: NODE_VERTICAL.read_signed(row),
            capacity: NODE_CAPACITY.read(row),
            sort: NODE_SORT.read(row),
        }
    }

    pub fn bytes(&self) -> [u8; NODE_BYTES] {
        let mut row = [0; NODE_BYTES];
        NODE_NUMBER.write(&mut row, self.number);
        NODE_HORIZONTAL.write_signed(&mut row, self.horizontal);
        NODE_VERTICAL.write_signed(&mut row, self.vertical);
        NODE_CAPACITY.write(&mut row, self.capacity);
        NODE_SORT.write(&mut row, self.sort);
        row
    }
}

#[derive(Clone, Copy, Debug, PartialEq, Eq)]
pub struct Link {
    pub a: u64,
    pub b: u64,
    /// Squared distance of the two nodes.
    pub distance: u64,
    pub amount: u64,
}

impl Link {
    pub fn new(a: u64, b: u64, distance: u64, amount: u64) -> Link {
        Link {
            a,
            b,
            distance,
            amount,
        }
    }

    pub fn read(row: &[u8]) -> Link {
        Link {
            a: LINK_A.read(row),
            b: LINK_B.read(row),
            distance: LINK_DISTANCE.read(row),
            amount: LINK_AMOUNT.read(row),
        }
    }

    /// The link as it stands where the masters are lent in the opposite order.
    pub fn exchanged(&self) -> Link {
        Link {
            a: self.b,
            b: self.a,
            ..*self
        }
    }

    pub fn bytes(&self) -> [u8; LINK_BYTES] {
        let mut row = [0; LINK_BYTES];
        LINK_A.write(&mut row, self.a);
        LINK_B.write(&mut row, self.b);
        LINK_DISTANCE.write(&mut row, self.distance);
        LINK_AMOUNT.write(&mut row, self.amount);
        row
    }
}

/// An edit as its fields stand, sensible or not.
#[derive(Clone, Copy, Debug, PartialEq, Eq)]
pub struct Edit {
    pub kind: u64,
    pub master: u64,
    pub number: u64,
    pub horizontal: i64,
    pub vertical: i64,
    pub capacity: u64,
    pub sort: u64,
}

impl Edit {
    pub fn read(bytes: &[u8]) -> Edit {
        Edit {
            kind: EDIT_KIND.read(bytes),
            master: EDIT_MASTER.read(bytes),
            number: EDIT_NUMBER.read(bytes),
            horizontal: EDIT_HORIZONTAL.read_signed(bytes),
            vertical: EDIT_VERTICAL.read_signed(bytes),
            capacity: EDIT_CAPACITY.read(bytes),
            sort: EDIT_SORT.read(bytes),
        }
    }

    pub fn bytes(&self) -> [u8; EDIT_BYTES] {
        let mut bytes = [0; EDIT_BYTES];
        EDIT_KIND.write(&mut bytes, self.kind);
        EDIT_MASTER.write(&mut bytes, self.master);
        EDIT_NUMBER.write(&mut bytes, self.number);
        EDIT_HORIZONTAL.write_signed(&mut bytes, self.horizontal);
        EDIT_VERTICAL.write_signed(&mut bytes, self.vertical);
        EDIT_CAPACITY.write(&mut bytes, self.capacity);
        EDIT_SORT.write(&mut bytes, self.sort);
        bytes
    }

    pub fn arrival(master: u64, node: Node) -> Edit {
        Edit {
            kind: KIND_ARRIVAL,
            master,
            number: node.number,
            horizontal: node.horizontal,
            vertical: node.vertical,
            capacity: node.capacity,
            sort: node.sort,
        }
    }

    /// The node that an arrival brings.
    pub fn node(&self) -> Node {
        Node {
            number: self.number,
            horizontal: self.horizontal,
            vertical: self.vertical,
            capacity: self.capacity,
            sort: self.sort,
        }
    }

    pub fn departure(master: u64, number: u64) -> Edit {
        Edit {
            kind: KIND_DEPARTURE,
            master,
            number,
            horizontal: 0,
            vertical: 0,
            capacity: 0,
            sort: 0,
        }
    }

    pub fn moved(master: u64, number: u64, horizontal: i64, vertical: i64) -> Edit {
        Edit {
            kind: KIND_MOVE,
            horizontal,
            vertical,
            ..Edit::departure(master, number)
        }
    }

    /// Sets the capacity and makes the node on-curve; see [`Edit::with_sort`].
    pub fn new_capacity(master: u64, number: u64, capacity: u64) -> Edit {
        Edit {
            kind: KIND_CAPACITY,
            capacity,
            sort: SORT_ON_CURVE,
            ..Edit::departure(master, number)
        }
    }

    /// The same edit with this sort, sensible for its kind or not.
    pub fn with_sort(self, sort: u64) -> Edit {
        Edit { sort, ..self }
    }
}

pub fn position_in_range(position: i64) -> bool {
    (POSITION_MIN..=POSITION_MAX).contains(&position)
}

pub fn capacity_in_range(capacity: u64) -> bool {
    (CAPACITY_MIN..=CAPACITY_MAX).contains(&capacity)
}

pub fn sort_in_range(sort: u64) -> bool {
    sort <= SORT_MAX
}
