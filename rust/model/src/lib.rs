//! Reference model of the pairing of the nodes of a light and a bold master.
//!
//! Plain and slow on purpose: every part is meant to be checked by eye against
//! document 01, whose sections the comments name, and document 02, P2.
//!
//! - [`calls`]: the five calls on lent buffers.
//! - [`paper`]: the paper drawing, which sees no lent table and no lent list.
//! - [`replay`]: the text that the replay program prints.
//! - [`reader`]: the reader's answers over one table.
//! - [`join`]: the join, three ways.
//! - [`checks`]: what has to hold of amounts and lists, as functions.
//! - [`generate`]: seeded drawings, damage, edits and histories for tests.
//! - [`engine`]: the five calls as data, so that a test can run any set of them.
//! - [`report`]: hex and tallies for what tests print.
//! - [`sizes`]: every size, width and range, and nothing of them elsewhere.

pub mod answer;
pub mod buffers;
pub mod calls;
pub mod checks;
pub mod engine;
pub mod generate;
pub mod join;
pub mod paper;
pub mod reader;
pub mod replay;
pub mod report;
pub mod rows;
pub mod sizes;
