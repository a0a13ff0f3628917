//! The library's reading and lexing, into slices that a caller keeps.

use plank::{
    MAX_TEXT, NODE_WIDTH, Refusal,
    raw::{self, Counts, Lengths},
};
use std::hint::black_box;

/// A quarter more words than are needed.
fn with_more(words: usize) -> usize {
    words + words / 4
}

pub struct Slices {
    tokens: Vec<u32>,
    nodes: Vec<u32>,
    values: Vec<u32>,
    reports: Vec<u32>,
}

impl Slices {
    /// As many words as the text needs, and a quarter more.
    pub fn for_text(text: &[u8]) -> Self {
        Slices::enough().fitting(text).expect("the text is read")
    }

    /// For any text.
    pub fn enough() -> Self {
        Slices::of(Lengths::enough(MAX_TEXT))
    }

    /// For this text; none where it is refused.
    pub fn fitting(&mut self, text: &[u8]) -> Option<Self> {
        let counts = self.try_read(text).ok()?;
        Some(Slices::of(Lengths {
            tokens: with_more(counts.tokens),
            nodes: with_more(NODE_WIDTH * counts.nodes),
            values: with_more(counts.values),
            reports: with_more(3 * counts.reports),
        }))
    }

    fn of(lengths: Lengths) -> Self {
        Slices {
            tokens: vec![0; lengths.tokens],
            nodes: vec![0; lengths.nodes],
            values: vec![0; lengths.values],
            reports: vec![0; lengths.reports],
        }
    }

    pub fn read(&mut self, text: &[u8]) -> Counts {
        self.try_read(text).expect("the slices suffice")
    }

    fn try_read(&mut self, text: &[u8]) -> Result<Counts, Refusal> {
        let Slices { tokens, nodes, values, reports } = self;
        raw::read(black_box(text), tokens, nodes, values, reports)
    }
}

/// What lexing is lent.
pub struct Tokens {
    words: Vec<u32>,
}

impl Tokens {
    /// As many words as the text needs, and a quarter more.
    pub fn for_text(text: &[u8]) -> Self {
        let mut enough = Tokens { words: vec![0; Lengths::enough(text.len()).tokens] };
        let count = enough.lex(text, raw::lex);
        Tokens { words: vec![0; with_more(count)] }
    }

    pub fn lex(
        &mut self,
        text: &[u8],
        lexer: impl Fn(&[u8], &mut [u32]) -> Result<usize, Refusal>,
    ) -> usize {
        lexer(black_box(text), &mut self.words).expect("the slice suffices")
    }
}
