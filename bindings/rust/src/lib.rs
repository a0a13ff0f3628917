//! The reader of Plank scripts, whose answers are proved, for programs in Rust.
//!
//! [`parse`] reads a text and gives its tree with all tokens, values and reports, or a [`Refusal`].
//! The names are those of the Plank parser in Rust: [`Lexed`],
//! [`NodeView`](cst::NodeView), [`Expr`](ast::Expr) and so on. What a tree says is asked of the
//! library's views; [`raw`] has these, and lexing and reading, on plain slices of words.
//!
//! Memory is Rust's throughout: the library is lent slices and keeps none.
//!
//! ```
//! let tree = plank::parse("const radius = 2 * (630 - bark);").unwrap();
//! for def in tree.as_file().iter_defs() {
//!     if let plank::ast::TopLevelDef::Const(decl) = def {
//!         println!("{}: {:?}", tree.name(decl.name), decl.assign);
//!     }
//! }
//! ```

#![deny(unsafe_code)]

pub mod accessor;
pub mod ast;
pub mod cst;
#[allow(unsafe_code)]
mod ffi;
pub mod lexer;
mod numbers;
pub mod raw;
mod refusal;
mod report;

pub use cst::{Altered, ConcreteSyntaxTree};
pub use lexer::Lexed;
pub use numbers::{MAX_TEXT, NODE_WIDTH};
pub use refusal::Refusal;
pub use report::{Report, ReportKind};

/// Reads a text.
pub fn parse(source: &str) -> Result<ConcreteSyntaxTree, Refusal> {
    read(source.as_bytes())
}

/// Reads a text that may not be UTF-8, which is then refused.
pub fn read(text: &[u8]) -> Result<ConcreteSyntaxTree, Refusal> {
    ConcreteSyntaxTree::read(text)
}
