//! The engine's exported calls. Their buffers, answers and refusals stand in include/pairing.h.

use interface::{calls, slice};
use model::engine::Engine;

/// The calls as the archive has them. Each buffer is a pointer and a length; a written one overlaps no other.
pub mod exported {
    use interface::{calls, pointer};

    macro_rules! declare {
        ($call:ident [$($buffer:ident: $how:ident),*] ($($number:ident: $type:ty),*)) => {
            #[link_name = concat!("pairing_", stringify!($call))]
            pub fn $call($($buffer: pointer!($how), _: usize,)* $($number: $type),*) -> u32;
        };
    }

    extern "C" {
        calls!(declare);
    }
}

macro_rules! address {
    ($buffer:ident: read) => {
        $buffer.as_ptr()
    };
    ($buffer:ident: write) => {
        $buffer.as_mut_ptr()
    };
}

macro_rules! make {
    ($call:ident [$($buffer:ident: $how:ident),*] ($($number:ident: $type:ty),*)) => {
        fn $call(&self, $($buffer: slice!($how),)* $($number: $type),*) -> u32 {
            // Any lengths and any bytes will do; the slices are valid for the call, and what is written, being
            // borrowed mutably, overlaps nothing else.
            unsafe { exported::$call($(address!($buffer: $how), $buffer.len(),)* $($number),*) }
        }
    };
}

/// The archive's calls on slices.
#[derive(Clone, Copy, Debug)]
pub struct Archive;

impl Engine for Archive {
    calls!(make);
}
