//! Every size, width, offset and range of document 01 ("Rows and buffers",
//! "Calls", "Cases") and of document 02, P2. A change of them touches this file
//! alone.
//!
//! Outside the rows all values are held in 64 bits, so that no other file
//! depends on a width.

/// Where a field stands in its row.
#[derive(Clone, Copy, Debug, PartialEq, Eq)]
pub struct Field {
    pub offset: usize,
    pub width: usize,
}

impl Field {
    const fn new(offset: usize, width: usize) -> Field {
        Field { offset, width }
    }

    const fn end(self) -> usize {
        self.offset + self.width
    }

    /// The greatest number that the field holds if it is unsigned.
    pub const fn greatest(self) -> u64 {
        u64::MAX >> (u64::BITS as usize - BITS_PER_BYTE * self.width)
    }

    /// The greatest number that the field holds in two's complement.
    pub const fn greatest_signed(self) -> i64 {
        (self.greatest() >> 1) as i64
    }

    /// The least number that the field holds in two's complement.
    pub const fn least_signed(self) -> i64 {
        -self.greatest_signed() - 1
    }
}

pub const BITS_PER_BYTE: usize = 8;

// Node row.
pub const NODE_BYTES: usize = 8;
pub const NODE_NUMBER: Field = Field::new(0, 2);
pub const NODE_HORIZONTAL: Field = Field::new(2, 2);
pub const NODE_VERTICAL: Field = Field::new(4, 2);
// The capacity field of two bytes, low and high (document 02, P2).
pub const NODE_CAPACITY: Field = Field::new(6, 1);
pub const NODE_SORT: Field = Field::new(7, 1);

// Table.
pub const TABLE_ROWS: usize = 512;
pub const TABLE_BYTES: usize = 4_096;

// Link row.
pub const LINK_BYTES: usize = 10;
pub const LINK_A: Field = Field::new(0, 2);
pub const LINK_B: Field = Field::new(2, 2);
pub const LINK_DISTANCE: Field = Field::new(4, 4);
pub const LINK_AMOUNT: Field = Field::new(8, 2);

// List.
pub const LIST_ROWS: usize = 1_023;
pub const LIST_BYTES: usize = 10_230;

// Edit.
pub const EDIT_BYTES: usize = 10;
pub const EDIT_KIND: Field = Field::new(0, 1);
pub const EDIT_MASTER: Field = Field::new(1, 1);
pub const EDIT_NUMBER: Field = Field::new(2, 2);
pub const EDIT_HORIZONTAL: Field = Field::new(4, 2);
pub const EDIT_VERTICAL: Field = Field::new(6, 2);
pub const EDIT_CAPACITY: Field = Field::new(8, 1);
pub const EDIT_SORT: Field = Field::new(9, 1);

// Kinds of edit.
pub const KIND_ARRIVAL: u64 = 1;
pub const KIND_DEPARTURE: u64 = 2;
pub const KIND_MOVE: u64 = 3;
pub const KIND_CAPACITY: u64 = 4;

// Masters.
pub const MASTER_A: u64 = 0;
pub const MASTER_B: u64 = 1;

// Ranges of the fields of a node.
pub const NUMBER_MIN: u64 = 1;
pub const NUMBER_MAX: u64 = 65_535;
pub const POSITION_MIN: i64 = -16_384;
pub const POSITION_MAX: i64 = 16_384;
pub const CAPACITY_MIN: u64 = 1;
pub const CAPACITY_MAX: u64 = 64;

// Sorts of node.
pub const SORT_ON_CURVE: u64 = 0;
pub const SORT_OFF_CURVE: u64 = 1;
pub const SORT_MAX: u64 = SORT_OFF_CURVE;

// Counts of Bands.
pub const BANDS: usize = 33;
pub const COUNT_BYTES: usize = 2;
pub const COUNTS_BYTES: usize = 66;

// Arguments of Spare that are numbers, not buffers.
pub type MasterArgument = u8;
pub type NumberArgument = u16;

/// The answer is the refusal number times this, plus the value.
pub const REFUSAL_FACTOR: u32 = 65_536;

// Replay program.
pub const REPLAY_TABLES_BYTES: usize = 8_192;
pub const REPLAY_EDITS: usize = 10_000;

/// The count at index k of a counts buffer.
pub const fn count_field(k: usize) -> Field {
    Field::new(k * COUNT_BYTES, COUNT_BYTES)
}

// The figures above follow from each other; a change of one alone fails here.
const _: () = {
    assert!(NODE_HORIZONTAL.offset == NODE_NUMBER.end());
    assert!(NODE_VERTICAL.offset == NODE_HORIZONTAL.end());
    assert!(NODE_CAPACITY.offset == NODE_VERTICAL.end());
    assert!(NODE_SORT.offset == NODE_CAPACITY.end());
    assert!(NODE_BYTES == NODE_SORT.end());
    assert!(TABLE_BYTES == TABLE_ROWS * NODE_BYTES);

    assert!(LINK_B.offset == LINK_A.end());
    assert!(LINK_DISTANCE.offset == LINK_B.end());
    assert!(LINK_AMOUNT.offset == LINK_DISTANCE.end());
    assert!(LINK_BYTES == LINK_AMOUNT.end());
    assert!(LIST_ROWS == TABLE_ROWS + TABLE_ROWS - 1);
    assert!(LIST_BYTES == LIST_ROWS * LINK_BYTES);

    assert!(EDIT_MASTER.offset == EDIT_KIND.end());
    assert!(EDIT_NUMBER.offset == EDIT_MASTER.end());
    assert!(EDIT_HORIZONTAL.offset == EDIT_NUMBER.end());
    assert!(EDIT_VERTICAL.offset == EDIT_HORIZONTAL.end());
    assert!(EDIT_CAPACITY.offset == EDIT_VERTICAL.end());
    assert!(EDIT_SORT.offset == EDIT_CAPACITY.end());
    assert!(EDIT_BYTES == EDIT_SORT.end());

    // Kinds follow each other without a gap.
    assert!(KIND_CAPACITY == KIND_ARRIVAL + 3);
    assert!(CAPACITY_MAX < NODE_CAPACITY.greatest());
    assert!(SORT_MAX < NODE_SORT.greatest());
    assert!(NUMBER_MAX == NODE_NUMBER.greatest());
    assert!(NUMBER_MAX == NumberArgument::MAX as u64);
    assert!(BANDS == LINK_DISTANCE.width * BITS_PER_BYTE + 1);
    assert!(COUNTS_BYTES == BANDS * COUNT_BYTES);
    assert!(REPLAY_TABLES_BYTES == TABLE_BYTES + TABLE_BYTES);
};
