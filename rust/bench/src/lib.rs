//! The engine's calls timed beside two peers that do the same work.
//!
//! - [`shapes`]: the families of drawings that are timed.
//! - [`cases`]: the calls that are timed, and what they are lent.
//! - [`calls`]: a set of the calls, the engine's or a peer's.
//! - [`peer`]: the calls in safe Rust, over a method of joining, checking and repairing.
//! - [`same`]: the engine's own method, once more: [`order`], [`blocks`], [`chain`], [`check`], [`repair`].
//! - [`sorted`]: the plain way, all pairs sorted, to check a list and to make one.
//! - [`bytes`], [`masters`]: tables to nodes of each sort and links to a list, as both peers do it.
//! - [`measure`]: the three by turns on the same calls, timed by [`clock`] and compared.
//! - [`count`]: the instructions of one fixed case.
//! - [`report`], [`mixed`], [`aims`]: the tables, and what was to be reached; [`files`]: where they go.
//! - [`trial`], [`hard`]: a drawing with an edit of it; those that change most links.
//! - [`worst`], [`changes`]: a search for the slowest edit.

pub mod aims;
pub mod blocks;
pub mod bytes;
pub mod calls;
pub mod cases;
pub mod chain;
pub mod changes;
pub mod check;
pub mod clock;
pub mod count;
pub mod files;
pub mod hard;
pub mod masters;
pub mod measure;
pub mod mixed;
pub mod order;
pub mod peer;
pub mod repair;
pub mod report;
pub mod same;
pub mod shapes;
pub mod sorted;
pub mod trial;
pub mod worst;
