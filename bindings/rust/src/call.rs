//! Calls of the library with slices: `[x]` passes a pointer and a length, `[mut x]` the same of a lent buffer.
//!
//! SAFETY, for every call: a Rust slice or vector has as many elements as it says, aligned and with values; one that
//! can be borrowed as `mut` overlaps no other; a `bool` is 0 or 1. An empty one may dangle, since its pointer is never
//! read. Only the `_checked` calls ask for more, and say beside them why it holds.

macro_rules! call {
    (@ $name:ident ($($done:expr,)*)) => { $crate::raw::$name($($done,)*) };
    (@ $name:ident ($($done:expr,)*) [mut $x:expr], $($rest:tt)*) => {
        call!(@ $name ($($done,)* $x.as_mut_ptr(), $x.len(),) $($rest)*)
    };
    (@ $name:ident ($($done:expr,)*) [$x:expr], $($rest:tt)*) => {
        call!(@ $name ($($done,)* $x.as_ptr(), $x.len(),) $($rest)*)
    };
    (@ $name:ident ($($done:expr,)*) $x:expr, $($rest:tt)*) => { call!(@ $name ($($done,)* $x,) $($rest)*) };
    ($name:ident($($args:tt)*)) => { call!(@ $name () $($args)*,) };
}
