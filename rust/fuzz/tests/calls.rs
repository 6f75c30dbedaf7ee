//! Each call by name is the model's call of that name, with its buffers and numbers in their places.

use std::collections::BTreeMap;

use fuzz::{model_call, Lent};
use interface::{calls, slice};
use model::buffers::table_of;
use model::engine::{Engine, Model};
use model::generate::drawing::Size;
use model::generate::history::History;
use model::generate::random::Random;
use model::report::POSSIBLE;
use model::sizes::LIST_BYTES;

/// The calls by name.
struct Named;

macro_rules! make {
    ($call:ident [$($buffer:ident: $how:ident),*] ($($number:ident: $type:ty),*)) => {
        fn $call(&self, $($buffer: slice!($how),)* $($number: $type),*) -> u32 {
            let name = concat!(stringify!($call), "\0").as_ptr().cast();
            let lent = [$(Lent { at: $buffer.as_ptr().cast_mut(), size: $buffer.len() }),*];
            let numbers: &[u64] = &[$($number as u64),*];
            unsafe { model_call(name, lent.as_ptr(), numbers.as_ptr()) }
        }
    };
}

impl Engine for Named {
    calls!(make);
}

/// The calls of histories, of all kinds, on what the history has made of its drawing.
#[test]
fn named_calls_are_the_models() {
    let mut tried: BTreeMap<&str, usize> = POSSIBLE.map(|(call, _)| (call, 0)).into();
    for seed in 0..40 {
        let history = History::random(&mut Random::new(seed), Size::Small, 30);
        let (mut a, mut b) = (table_of(&history.drawing.a), table_of(&history.drawing.b));
        let mut list = vec![0; LIST_BYTES];
        Named.pair(&a, &b, &mut list);
        for call in &history.calls {
            let ran = Named.run(call, &a, &b, &list);
            assert_eq!(ran, Model.run(call, &a, &b, &list), "seed {seed}, {call:?}");
            *tried.entry(call.request.name()).or_default() += 1;
            if call.lends_whole() {
                (a, b, list) = (ran.after.a, ran.after.b, ran.after.list);
            }
        }
    }
    assert!(tried.values().all(|times| *times > 20), "{tried:?}");
}

#[test]
fn another_name_is_no_call() {
    let none = unsafe { model_call(c"pairs".as_ptr(), [].as_ptr(), [].as_ptr()) };
    assert_eq!(none, u32::MAX);
}
