//! The reference, compiled over stand-ins, and its answers as the words of document 01.

// The seven files of the reference: modules ast, cst, lexer and parser.
include!(concat!(env!("OUT_DIR"), "/modules.rs"));

mod run;
pub mod views;
mod watch;
mod words;

pub use run::{End, Lengths, Refusal, Run, run};
pub use watch::{Step, Taken};
pub use words::{NODE_WIDTH, Words, lex, read, try_read};
