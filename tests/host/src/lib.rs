//! What the host tests share. None of it is taken from the proved crates: it is written from the specification, so that a
//! slip in both would have to be made twice. Only the declarations and calls in `exports` are made from them, and `check_by_search`
//! is a check that the unit once had, held against both.
pub mod calls;
pub mod check_by_search;
pub mod compare;
pub mod dividers;
pub mod draw;
#[rustfmt::skip]
mod exports;
pub mod lent;
pub mod programs;
pub mod specification;
pub mod svg;
