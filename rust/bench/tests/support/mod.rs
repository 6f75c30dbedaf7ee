//! The model beside both peers: the same answer, and every lent byte the same.

use bench::calls::Caller;
use bench::peer::Peer;
use bench::same::Same;
use bench::sorted::Sorted;
use model::engine::{Buffers, Model, Request};

/// Both peers, kept from call to call as the bench keeps them.
#[derive(Default)]
pub struct Peers {
    same: Peer<Same>,
    plain: Peer<Sorted>,
}

impl Peers {
    /// Runs a call by the model and by both peers; gives what they agree on.
    pub fn run(&mut self, what: &str, request: &Request, lent: &Buffers) -> (u32, Buffers) {
        let run = |caller: &mut dyn Caller| {
            let mut lent = lent.clone();
            (caller.run(request, &mut lent), lent)
        };
        let expected = run(&mut Model);
        let peers: [(&str, &mut dyn Caller); 2] = [
            ("the same method", &mut self.same),
            ("the plain way", &mut self.plain),
        ];
        for (name, peer) in peers {
            let (answer, left) = run(peer);
            assert_eq!(answer, expected.0, "{name}, {request:?}, {what}");
            assert!(left == expected.1, "{name}, {request:?}, bytes, {what}");
        }
        expected
    }
}
