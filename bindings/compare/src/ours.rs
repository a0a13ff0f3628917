//! The crate `plank`.

pub use plank as parser;

use parser::{ast::MatchArm, lexer::TokenSpan};
use std::fmt::Display;

pub fn number(index: impl Display) -> String {
    index.to_string()
}

/// The one place where the two differ for whoever uses them.
pub fn arm(arm: Result<MatchArm<'_>, TokenSpan>) -> Result<MatchArm<'_>, TokenSpan> {
    arm
}

#[path = "walk.rs"]
pub mod walk;
