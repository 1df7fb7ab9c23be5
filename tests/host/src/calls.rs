//! The calls of the archive as the tests make them: those of exports.rs, which is made from the exports. A call that has a twin through
//! the kept table has one function here, with a lent table or none.

use crate::exports;
pub use crate::exports::*;

/// What a call was lent to read is left as it was.
pub fn left<X: PartialEq>(lent: &[X], before: &[X]) {
    assert!(std::hint::black_box(lent) == before, "a call changed what it was lent to read");
}

pub fn run(table: Option<&[u8]>, dividend: u64, divisor: u64, digits: usize, buffer: &mut [u8], place: usize) -> Ran {
    match table {
        Some(table) => exports::run(table, dividend, divisor, digits, buffer, place),
        None => run_kept(dividend, divisor, digits, buffer, place),
    }
}

pub fn divide_whole(table: Option<&[u8]>, a: u64, b: u64) -> Whole {
    match table {
        Some(table) => exports::divide_whole(table, a, b),
        None => divide_whole_kept(a, b),
    }
}

pub fn divide_binary64(table: Option<&[u8]>, a: u64, b: u64, direction: u64) -> Binary64 {
    match table {
        Some(table) => exports::divide_binary64(table, a, b, direction),
        None => divide_binary64_kept(a, b, direction),
    }
}
