//! The calls of include/pairing.h, listed once for all packages; tests/header.rs compares the list with the header.

/// Hands each call to a macro: its name, its buffers in order, `read` or `write` as the call has them, and its numbers.
#[macro_export]
macro_rules! calls {
    ($each:ident) => {
        $each! { pair [a: read, b: read, list: write] () }
        $each! { step [a: read, b: read, list: write] () }
        $each! { edit [a: write, b: write, list: write, edit: read] () }
        $each! { spare [a: read, b: read, list: read] (master: u8, number: u16) }
        $each! { bands [a: read, b: read, list: read, counts: write] () }
    };
}

/// The type of a buffer in safe code.
#[macro_export]
macro_rules! slice {
    (read) => {
        &[u8]
    };
    (write) => {
        &mut [u8]
    };
}

/// The type of its pointer at the C interface; its length follows.
#[macro_export]
macro_rules! pointer {
    (read) => { *const u8 };
    (write) => { *mut u8 };
}
