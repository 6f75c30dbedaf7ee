//! A drawing and its list, on which each edit is made by the archive and by the model: the same answer, and every byte.

use differential::Archive;
use model::buffers::table_of;
use model::engine::{Engine, Model};
use model::rows::{Edit, Node};
use model::sizes::{LIST_BYTES, LIST_ROWS};

#[derive(Clone, PartialEq, Eq)]
pub struct Held {
    pub a: Vec<u8>,
    pub b: Vec<u8>,
    pub list: Vec<u8>,
}

impl Held {
    /// Two masters and their finished list.
    pub fn new(what: &str, a: &[Node], b: &[Node]) -> Held {
        let (a, b) = (table_of(a), table_of(b));
        let (mut list, mut got) = (vec![0; LIST_BYTES], vec![0xa5; LIST_BYTES]);
        let links = Model.pair(&a, &b, &mut list);
        assert_eq!(Archive.pair(&a, &b, &mut got), links, "Pair, {what}");
        assert!(got == list, "Pair, {what}");
        Held { a, b, list }
    }

    /// What the edit leaves, which is done.
    pub fn edited(&self, what: &str, edit: &Edit) -> Held {
        let bytes = edit.bytes();
        let (mut right, mut got) = (self.clone(), self.clone());
        let answer = Model.edit(&mut right.a, &mut right.b, &mut right.list, &bytes);
        let said = Archive.edit(&mut got.a, &mut got.b, &mut got.list, &bytes);
        assert!(answer <= LIST_ROWS as u32, "model refuses {edit:?}, {what}");
        assert_eq!(said, answer, "{edit:?}, {what}");
        assert!(got == right, "{edit:?}, {what}");
        right
    }
}
