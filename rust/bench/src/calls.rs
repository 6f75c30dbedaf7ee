//! Any set of the calls on bytes: the archive's, the model's, or a peer's.

use interface::{calls, slice};
use model::engine::{Buffers, Engine, Request};

macro_rules! declare {
    ($call:ident [$($buffer:ident: $how:ident),*] ($($number:ident: $type:ty),*)) => {
        fn $call(&mut self, $($buffer: slice!($how),)* $($number: $type),*) -> u32;
    };
}

pub trait Calls {
    calls!(declare);
}

macro_rules! pass_on {
    ($call:ident [$($buffer:ident: $how:ident),*] ($($number:ident: $type:ty),*)) => {
        fn $call(&mut self, $($buffer: slice!($how),)* $($number: $type),*) -> u32 {
            Engine::$call(self, $($buffer,)* $($number),*)
        }
    };
}

/// An engine keeps nothing between calls.
impl<E: Engine> Calls for E {
    calls!(pass_on);
}

/// Who makes the call that is asked for, on these buffers.
pub trait Caller {
    fn run(&mut self, request: &Request, lent: &mut Buffers) -> u32;
}

impl<C: Calls> Caller for C {
    fn run(&mut self, request: &Request, lent: &mut Buffers) -> u32 {
        let Buffers { a, b, list, counts } = lent;
        match request {
            Request::Pair => self.pair(a, b, list),
            Request::Step => self.step(a, b, list),
            Request::Edit { edit } => self.edit(a, b, list, edit),
            Request::Spare { master, number } => self.spare(a, b, list, *master, *number),
            Request::Bands { .. } => self.bands(a, b, list, counts),
        }
    }
}
