//! The Plank parser.

pub use oracle as parser;

use parser::{ast::MatchArm, lexer::TokenSpan};
use plank_core::Idx;

pub fn number(index: impl Idx) -> u32 {
    index.get()
}

pub fn arm(arm: MatchArm<'_>) -> Result<MatchArm<'_>, TokenSpan> {
    Ok(arm)
}

#[path = "walk.rs"]
pub mod walk;
