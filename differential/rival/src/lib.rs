//! The reference, compiled once more over fast stand-ins, for timing.

// The seven files of the reference: modules ast, cst, lexer and parser.
include!(concat!(env!("OUT_DIR"), "/modules.rs"));

#[path = "../../oracle/src/words.rs"]
mod words;

pub use words::{
    NODE_WIDTH, Words, lex, parents_of, read, report_words, token_words, try_read, words_of,
};
