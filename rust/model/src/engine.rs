//! Calls as data, and any set of the five calls that they can be run on: the
//! model's own, or another one with the same byte interface.

use crate::calls;
use crate::paper::{Lengths, PaperCall};
use crate::sizes::*;

/// How a buffer of the stated length is lent.
#[derive(Clone, Debug, PartialEq, Eq)]
pub enum Lend {
    Whole,
    /// Only the first `to` bytes.
    Cut {
        to: usize,
    },
    /// With these bytes after it.
    Added {
        bytes: Vec<u8>,
    },
}

impl Lend {
    pub fn of(&self, buffer: &[u8]) -> Vec<u8> {
        match self {
            Lend::Whole => buffer.to_vec(),
            Lend::Cut { to } => buffer[..*to].to_vec(),
            Lend::Added { bytes } => [buffer, bytes].concat(),
        }
    }

    /// The lent length of a buffer of this stated length.
    pub fn length(&self, stated: usize) -> usize {
        match self {
            Lend::Whole => stated,
            Lend::Cut { to } => *to,
            Lend::Added { bytes } => stated + bytes.len(),
        }
    }
}

/// A call's kind and its arguments other than the tables and the list.
#[derive(Clone, Debug, PartialEq, Eq)]
pub enum Request {
    Pair,
    Step,
    Edit {
        edit: Vec<u8>,
    },
    Spare {
        master: MasterArgument,
        number: NumberArgument,
    },
    /// The counts buffer as lent, of any length and content.
    Bands {
        counts: Vec<u8>,
    },
}

impl Request {
    pub fn name(&self) -> &'static str {
        match self {
            Request::Pair => "Pair",
            Request::Step => "Step",
            Request::Edit { .. } => "Edit",
            Request::Spare { .. } => "Spare",
            Request::Bands { .. } => "Bands",
        }
    }

    /// What the paper drawing may see of it.
    pub fn for_paper(&self) -> PaperCall<'_> {
        match self {
            Request::Pair => PaperCall::Pair,
            Request::Step => PaperCall::Step,
            Request::Edit { edit } => PaperCall::Edit { edit },
            Request::Spare { master, number } => PaperCall::Spare {
                master: *master,
                number: *number,
            },
            Request::Bands { counts } => PaperCall::Bands {
                counts_length: counts.len(),
            },
        }
    }
}

/// One call of a history.
#[derive(Clone, Debug, PartialEq, Eq)]
pub struct Call {
    pub a: Lend,
    pub b: Lend,
    pub list: Lend,
    pub request: Request,
}

impl Call {
    /// A call that is lent its tables and its list as they are.
    pub fn whole(request: Request) -> Call {
        Call {
            a: Lend::Whole,
            b: Lend::Whole,
            list: Lend::Whole,
            request,
        }
    }

    pub fn lends_whole(&self) -> bool {
        [&self.a, &self.b, &self.list]
            .iter()
            .all(|lend| **lend == Lend::Whole)
    }

    pub fn lengths(&self) -> Lengths {
        Lengths {
            a: self.a.length(TABLE_BYTES),
            b: self.b.length(TABLE_BYTES),
            list: self.list.length(LIST_BYTES),
        }
    }
}

/// The tables, the list, and the counts of a Bands (else no bytes).
#[derive(Clone, Debug, PartialEq, Eq)]
pub struct Buffers {
    pub a: Vec<u8>,
    pub b: Vec<u8>,
    pub list: Vec<u8>,
    pub counts: Vec<u8>,
}

/// What a call answered, and its lent buffers before and after it.
#[derive(Clone, Debug, PartialEq, Eq)]
pub struct Ran {
    pub answer: u32,
    pub before: Buffers,
    pub after: Buffers,
}

/// A set of the five calls, with the byte interface of document 01.
pub trait Engine {
    fn pair(&self, a: &[u8], b: &[u8], list: &mut [u8]) -> u32;
    fn step(&self, a: &[u8], b: &[u8], list: &mut [u8]) -> u32;
    fn edit(&self, a: &mut [u8], b: &mut [u8], list: &mut [u8], edit: &[u8]) -> u32;
    fn spare(
        &self,
        a: &[u8],
        b: &[u8],
        list: &[u8],
        master: MasterArgument,
        number: NumberArgument,
    ) -> u32;
    fn bands(&self, a: &[u8], b: &[u8], list: &[u8], counts: &mut [u8]) -> u32;

    /// Runs one call on copies of the held tables and list, lent as it says.
    fn run(&self, call: &Call, a: &[u8], b: &[u8], list: &[u8]) -> Ran {
        let counts = match &call.request {
            Request::Bands { counts } => counts.clone(),
            _ => Vec::new(),
        };
        let before = Buffers {
            a: call.a.of(a),
            b: call.b.of(b),
            list: call.list.of(list),
            counts,
        };
        let mut after = before.clone();
        let Buffers { a, b, list, counts } = &mut after;
        let answer = match &call.request {
            Request::Pair => self.pair(a, b, list),
            Request::Step => self.step(a, b, list),
            Request::Edit { edit } => self.edit(a, b, list, edit),
            Request::Spare { master, number } => self.spare(a, b, list, *master, *number),
            Request::Bands { .. } => self.bands(a, b, list, counts),
        };
        Ran {
            answer,
            before,
            after,
        }
    }
}

/// The model's own calls.
#[derive(Clone, Copy, Debug)]
pub struct Model;

impl Engine for Model {
    fn pair(&self, a: &[u8], b: &[u8], list: &mut [u8]) -> u32 {
        calls::pair(a, b, list)
    }

    fn step(&self, a: &[u8], b: &[u8], list: &mut [u8]) -> u32 {
        calls::step(a, b, list)
    }

    fn edit(&self, a: &mut [u8], b: &mut [u8], list: &mut [u8], edit: &[u8]) -> u32 {
        calls::edit(a, b, list, edit)
    }

    fn spare(
        &self,
        a: &[u8],
        b: &[u8],
        list: &[u8],
        master: MasterArgument,
        number: NumberArgument,
    ) -> u32 {
        calls::spare(a, b, list, master, number)
    }

    fn bands(&self, a: &[u8], b: &[u8], list: &[u8], counts: &mut [u8]) -> u32 {
        calls::bands(a, b, list, counts)
    }
}
