//! The library's calls on plain slices of words, for any words: those of an archive, or of a
//! reading into memory of one's own.
//!
//! A slice may have any length and any words. Refusals say what doesn't fit and what was altered;
//! nothing here panics.

use crate::{
    ffi,
    lexer::{TokenIdx, TokenSpan},
    numbers::{MAX_TEXT, NODE_WIDTH, REPORT_WIDTH},
    refusal::Refusal,
};

/// A view's answer where there is none (`NOTHING` of crates/codes).
pub(crate) const NONE: u64 = 1 << 63;

/// How many tokens, nodes, value words and reports a text has.
#[derive(Debug, Clone, Copy, PartialEq, Eq)]
pub struct Counts {
    pub tokens: usize,
    pub nodes: usize,
    pub values: usize,
    pub reports: usize,
}

/// Lengths of slices, in words.
#[derive(Debug, Clone, Copy, PartialEq, Eq)]
pub struct Lengths {
    pub tokens: usize,
    pub nodes: usize,
    pub values: usize,
    pub reports: usize,
}

impl Lengths {
    /// Lengths that always suffice for a text of so many bytes; a text that is too long is refused
    /// whatever they are. Every token but Eof has a byte; bindings/README.md argues for three
    /// nodes, two value words and two reports for a byte.
    pub fn enough(text_len: usize) -> Self {
        let n = text_len.min(MAX_TEXT);
        Lengths {
            tokens: n + 1,
            nodes: NODE_WIDTH * (3 * n + 1),
            values: 2 * n,
            reports: REPORT_WIDTH * (2 * n + 1),
        }
    }
}

/// Lexes a text: the number of tokens, which stand first in `tokens` with 0 behind them. A refusal
/// leaves all of them 0.
pub fn lex(text: &[u8], tokens: &mut [u32]) -> Result<usize, Refusal> {
    counted(ffi::lex(text, tokens))
}

/// The same answers by the branching lexer, where [`lex`] lexes from tables: for those who compare
/// the two.
pub fn lex_branching(text: &[u8], tokens: &mut [u32]) -> Result<usize, Refusal> {
    counted(ffi::lex_branching(text, tokens))
}

fn counted(code: u64) -> Result<usize, Refusal> {
    match code {
        count if count <= u64::from(u32::MAX) => Ok(count as usize),
        code => Err(Refusal::from_code(code)),
    }
}

/// Reads a text: the counts of what stands first in the four slices, with 0 behind it. A refusal
/// leaves all of them 0.
pub fn read(
    text: &[u8],
    tokens: &mut [u32],
    nodes: &mut [u32],
    values: &mut [u32],
    reports: &mut [u32],
) -> Result<Counts, Refusal> {
    let mut counts = [0; 4];
    match ffi::read(text, tokens, nodes, values, reports, &mut counts) {
        0 => {
            let [tokens, nodes, values, reports] = counts.map(|count| count as usize);
            Ok(Counts { tokens, nodes, values, reports })
        }
        code => Err(Refusal::from_code(code)),
    }
}

/// What an accessor tells of node `n`: a number, or none. Accessors of lists tell their i-th,
/// `NODE_AT_TOKEN` the node at token `i`.
pub fn number(which: u32, nodes: &[u32], n: u32, i: u32) -> Result<Option<u32>, Refusal> {
    Ok(seen(ffi::view(which, nodes, n, i))?.map(|number| number as u32))
}

/// The same of accessors that tell tokens.
pub fn span(which: u32, nodes: &[u32], n: u32) -> Result<Option<TokenSpan>, Refusal> {
    let mut span = [0; 2];
    let told = seen(ffi::view_span(which, nodes, n, &mut span))?;
    let [start, end] = span.map(TokenIdx::new);
    Ok(told.map(|_| TokenSpan { start, end }))
}

/// The same of accessors that count.
pub fn count(which: u32, nodes: &[u32], n: u32) -> Result<Option<usize>, Refusal> {
    Ok(seen(ffi::view_count(which, nodes, n))?.map(|count| count as usize))
}

fn seen(code: u64) -> Result<Option<u64>, Refusal> {
    match code {
        NONE => Ok(None),
        number if number <= u64::from(u32::MAX) => Ok(Some(number)),
        code => Err(Refusal::from_code(code)),
    }
}
