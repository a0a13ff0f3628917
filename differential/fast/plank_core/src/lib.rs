//! Fast stand-in for `plank_core`: index types, vectors addressed by them, spans, number values.

pub mod bigint;
#[path = "../../../stand-ins/plank_core/src/const_print.rs"]
pub mod const_print;
mod idx;
mod index_vec;
pub mod list_of_lists;
#[path = "../../../stand-ins/plank_core/src/span.rs"]
mod span;

pub use idx::Idx;
pub use index_vec::IndexVec;
pub use span::Span;
