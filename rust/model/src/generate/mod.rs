//! Seeded generators for tests, of this model or of another one with the same
//! byte interface. The same seed gives the same data on every machine.
//!
//! - [`random::Random`]: the pseudo-random source that all others draw from.
//! - [`drawing::Drawing`]: two masters, labelled with family and classes.
//! - [`sorts::Sorts`]: which nodes of a drawing are on-curve.
//! - [`edits`]: edits that will be done, and edits with one bad field.
//! - [`damage`]: faulty tables and lists, with the row at fault.
//! - [`lengths`]: wrong lengths, and buffers lent with them.
//! - [`history::History`]: a drawing and a run of calls on it.
//!
//! A history run on an engine, beside the paper drawing:
//!
//! ```
//! use model::engine::{Engine, Model};
//! use model::generate::{drawing::Size, history::History, random::Random};
//! use model::paper::PaperDrawing;
//! use model::sizes::LIST_BYTES;
//!
//! let history = History::random(&mut Random::new(7), Size::Small, 20);
//! let drawing = &history.drawing;
//! let (mut a, mut b) = (drawing.table_a(), drawing.table_b());
//! let mut list = vec![0; LIST_BYTES];
//! Model.pair(&a, &b, &mut list);
//! let mut paper = PaperDrawing::new(drawing.a.clone(), drawing.b.clone()).unwrap();
//! for call in &history.calls {
//!     let ran = Model.run(call, &a, &b, &list);
//!     let on_paper = paper.call(call.lengths(), call.request.for_paper());
//!     assert_eq!(ran.answer, on_paper.answer(), "{:?} {history}", drawing.family);
//!     if call.lends_whole() {
//!         (a, b, list) = (ran.after.a, ran.after.b, ran.after.list);
//!     }
//!     assert!(a == paper.table_a() && b == paper.table_b() && list == paper.list());
//! }
//! ```

mod contours;
pub mod damage;
pub mod drawing;
pub mod edits;
mod fields;
pub mod history;
pub mod lengths;
pub mod places;
pub mod random;
pub mod sorts;
