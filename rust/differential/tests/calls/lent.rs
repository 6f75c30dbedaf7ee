//! The archive on lent memory: all buffers of a call in one stretch, at any address, with bytes that are not lent around
//! each.

use std::array::from_fn;
use std::cell::RefCell;
use std::ops::Range;

use differential::exported;
use interface::{calls, slice};
use model::engine::Engine;
use model::generate::random::Random;

/// The most bytes between two buffers, and ahead of the first and behind the last.
const MOST_BETWEEN: usize = 24;

/// The archive's calls, each on memory of its own.
pub struct Lent<'a> {
    random: RefCell<&'a mut Random>,
    /// Table B is lent as A's own bytes.
    shared: bool,
    stray: RefCell<Option<String>>,
}

impl Lent<'_> {
    pub fn new(random: &mut Random, shared: bool) -> Lent<'_> {
        Lent {
            random: RefCell::new(random),
            shared,
            stray: RefCell::default(),
        }
    }

    /// The first byte that a call has changed and must not, in words.
    pub fn stray(self) -> Option<String> {
        self.stray.into_inner()
    }
}

macro_rules! lend {
    ($call:ident [$($buffer:ident: $how:ident),*] ($($number:ident: $type:ty),*)) => {
        fn $call(&self, $($buffer: slice!($how),)* $($number: $type),*) -> u32 {
            let lent = [$((stringify!($buffer), &*$buffer)),*];
            let mut memory = Memory::new(*self.random.borrow_mut(), lent, self.shared);
            let answer = {
                let [$($buffer),*] = memory.lend();
                // The buffers lie within the memory, and what is written overlaps nothing else: tables are shared
                // only by calls that read them.
                unsafe { exported::$call($($buffer.0, $buffer.1,)* $($number),*) }
            };
            $(memory.$how(stringify!($buffer), $buffer);)*
            self.stray.replace(memory.stray());
            answer
        }
    };
}

impl Engine for Lent<'_> {
    calls!(lend);
}

struct Memory<const N: usize> {
    before: Vec<u8>,
    bytes: Vec<u8>,
    places: [Range<usize>; N],
    names: [&'static str; N],
}

impl<const N: usize> Memory<N> {
    fn new(random: &mut Random, lent: [(&'static str, &[u8]); N], shared: bool) -> Memory<N> {
        let mut bytes = Vec::new();
        let mut place = |buffer: &[u8]| {
            let between = random.size(1, MOST_BETWEEN);
            bytes.extend(random.bytes(between));
            bytes.extend(buffer);
            bytes.len() - buffer.len()..bytes.len()
        };
        let mut places = lent.map(|(_, buffer)| place(buffer));
        place(&[]);
        if shared {
            places[1] = places[0].clone();
        }
        Memory {
            before: bytes.clone(),
            bytes,
            places,
            names: lent.map(|(name, _)| name),
        }
    }

    /// Pointers and lengths. All come from one mutable borrow, so that a write anywhere in the memory is seen.
    fn lend(&mut self) -> [(*mut u8, usize); N] {
        let start = self.bytes.as_mut_ptr();
        from_fn(|k| {
            (
                start.wrapping_add(self.places[k].start),
                self.places[k].len(),
            )
        })
    }

    /// A buffer that was read has to be as it was.
    fn read(&mut self, _: &str, _: &[u8]) {}

    /// One that was written is given back, and put aside.
    fn write(&mut self, name: &str, buffer: &mut [u8]) {
        let lent = self.names.iter().zip(&self.places);
        let mut found = lent.filter(|(other, _)| **other == name);
        let place = found.next().expect("a lent buffer").1.clone();
        buffer.copy_from_slice(&self.bytes[place.clone()]);
        self.bytes[place.clone()].copy_from_slice(&self.before[place]);
    }

    fn stray(&self) -> Option<String> {
        let mut both = self.bytes.iter().zip(&self.before);
        let at = both.position(|(byte, other)| byte != other)?;
        let within = self.places.iter().position(|place| place.contains(&at));
        Some(match within {
            Some(k) => format!(
                "byte {} of {} is written",
                at - self.places[k].start,
                self.names[k]
            ),
            None => format!("byte {at} of the memory is written, which is not lent"),
        })
    }
}
