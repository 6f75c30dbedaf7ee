//! The model's calls for the fuzz target in cpp/fuzz, which links them beside the engine.

use std::ffi::{c_char, CStr};
use std::slice::{from_raw_parts, from_raw_parts_mut};

use interface::calls;

/// A buffer as it is lent.
#[derive(Clone, Copy)]
#[repr(C)]
pub struct Lent {
    pub at: *mut u8,
    pub size: usize,
}

impl Lent {
    unsafe fn read<'a>(self) -> &'a [u8] {
        from_raw_parts(self.at, self.size)
    }

    unsafe fn write<'a>(self) -> &'a mut [u8] {
        from_raw_parts_mut(self.at, self.size)
    }
}

/// The first of them, as many as the caller takes.
unsafe fn first<T: Copy, const N: usize>(of: *const T) -> [T; N] {
    *of.cast()
}

/// The model's call of this name on buffers and numbers in the order of include/pairing.h; u32::MAX for any other name.
///
/// # Safety
/// The name ends in a zero byte, the call's buffers and numbers are there, every pointer is valid for its length, and a
/// written buffer overlaps no other.
#[no_mangle]
pub unsafe extern "C" fn model_call(
    name: *const c_char,
    lent: *const Lent,
    numbers: *const u64,
) -> u32 {
    let name = CStr::from_ptr(name).to_bytes();
    macro_rules! try_call {
        ($call:ident [$($buffer:ident: $how:ident),*] ($($number:ident: $type:ty),*)) => {
            if name == stringify!($call).as_bytes() {
                let [$($buffer),*] = first(lent);
                let [$($number),*] = first(numbers);
                return model::calls::$call($($buffer.$how(),)* $($number as $type),*);
            }
        };
    }
    calls!(try_call);
    u32::MAX
}
