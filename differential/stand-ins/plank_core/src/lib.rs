//! Stand-in for `plank_core`: index types, vectors addressed by them, spans, number values.

pub mod bigint;
pub mod const_print;
mod idx;
mod index_vec;
pub mod list_of_lists;
mod span;

pub use idx::Idx;
pub use index_vec::IndexVec;
pub use span::Span;

/// Named by `newtype_index`, as its users know no hooks.
pub fn counted(index: &dyn std::any::Any) {
    hooks::tell(hooks::Call::Counted(index));
}
