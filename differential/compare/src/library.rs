//! Calls of the library under test.

use crate::{
    answer::Answer,
    read,
    read::{COUNTS, Lent as Lengths},
};
use oracle::NODE_WIDTH;
use std::fmt;

unsafe extern "C" {
    fn plank_lex(text: *const u8, text_len: usize, tokens: *mut u32, tokens_len: usize) -> u64;

    fn plank_lex_branching(
        text: *const u8,
        text_len: usize,
        tokens: *mut u32,
        tokens_len: usize,
    ) -> u64;

    fn plank_read(
        text: *const u8,
        text_len: usize,
        tokens: *mut u32,
        tokens_len: usize,
        nodes: *mut u32,
        nodes_len: usize,
        values: *mut u32,
        values_len: usize,
        reports: *mut u32,
        reports_len: usize,
        counts: *mut u64,
        counts_len: usize,
    ) -> u64;

    fn plank_view(which: u32, nodes: *const u32, nodes_len: usize, n: u32, i: u32) -> u64;

    fn plank_view_count(which: u32, nodes: *const u32, nodes_len: usize, n: u32) -> u64;

    fn plank_view_span(
        which: u32,
        nodes: *const u32,
        nodes_len: usize,
        n: u32,
        span: *mut u32,
        span_len: usize,
    ) -> u64;
}

/// Slices are lent full of this, so that a word left as lent is seen.
const FILL: u32 = 0xa5a5_a5a5;

/// As `FILL`, for counts.
pub const COUNT_FILL: u64 = 0xa5a5_a5a5_a5a5_a5a5;

/// Words before and behind the lent slice that must stay as they are.
const GUARD: usize = 8;

/// Stands behind the text: whoever reads on gets another last token.
const BEHIND_TEXT: &[u8] = b"x*/\"\n";

/// A slice to lend, between guards.
struct Lent<W> {
    words: Vec<W>,
    length: usize,
    fill: W,
}

impl<W: Copy + PartialEq> Lent<W> {
    fn new(length: usize, fill: W) -> Self {
        Lent { words: vec![fill; GUARD + length + GUARD], length, fill }
    }

    fn slice(&mut self) -> &mut [W] {
        &mut self.words[GUARD..GUARD + self.length]
    }

    /// Are the guards as they were?
    fn is_kept(&self) -> bool {
        let behind = &self.words[GUARD + self.length..];
        self.words[..GUARD].iter().chain(behind).all(|word| *word == self.fill)
    }

    fn back(mut self) -> Vec<W> {
        self.words.truncate(GUARD + self.length);
        self.words.split_off(GUARD)
    }
}

/// The library has two lexers, which must answer alike.
#[derive(Debug, Clone, Copy, PartialEq, Eq)]
pub enum Lexer {
    /// `plank_lex`, from a table of byte classes and one of states.
    Tables,
    /// `plank_lex_branching`.
    Branching,
}

impl Lexer {
    pub const BOTH: [Lexer; 2] = [Lexer::Tables, Lexer::Branching];

    pub fn lex(self, text: &[u8], lent: usize) -> Answer {
        let call = match self {
            Lexer::Tables => plank_lex,
            Lexer::Branching => plank_lex_branching,
        };
        let memory = [text, BEHIND_TEXT].concat();
        let mut tokens = Lent::new(lent, FILL);
        let slice = tokens.slice();
        // Safety: both pointers and lengths are those of live slices, the second one unshared.
        let packed = unsafe { call(memory.as_ptr(), text.len(), slice.as_mut_ptr(), slice.len()) };
        Answer {
            number: (packed >> 32) as u32,
            value: packed as u32,
            stayed_inside: tokens.is_kept(),
            words: tokens.back(),
        }
    }
}

impl fmt::Display for Lexer {
    fn fmt(&self, f: &mut fmt::Formatter<'_>) -> fmt::Result {
        f.write_str(match self {
            Lexer::Tables => "tables",
            Lexer::Branching => "branching",
        })
    }
}

/// The slices lent to `read`.
struct Slices {
    tokens: Lent<u32>,
    nodes: Lent<u32>,
    values: Lent<u32>,
    reports: Lent<u32>,
    counts: Lent<u64>,
}

impl Slices {
    fn new(lent: Lengths) -> Self {
        Slices {
            tokens: Lent::new(lent.tokens, FILL),
            nodes: Lent::new(lent.rest.nodes, FILL),
            values: Lent::new(lent.rest.values, FILL),
            reports: Lent::new(lent.rest.reports, FILL),
            counts: Lent::new(COUNTS, COUNT_FILL),
        }
    }

    fn is_kept(&self) -> bool {
        let words = [&self.tokens, &self.nodes, &self.values, &self.reports];
        words.iter().all(|lent| lent.is_kept()) && self.counts.is_kept()
    }

    fn answer(self, packed: u64, is_text_kept: bool) -> read::Answer {
        read::Answer {
            number: (packed >> 32) as u32,
            place: packed as u32,
            stayed_inside: self.is_kept() && is_text_kept,
            counts: self.counts.back(),
            tokens: self.tokens.back(),
            nodes: self.nodes.back(),
            values: self.values.back(),
            reports: self.reports.back(),
        }
    }
}

pub fn read(text: &[u8], lent: Lengths) -> read::Answer {
    let memory = [text, BEHIND_TEXT].concat();
    let mut slices = Slices::new(lent);
    let packed = call_read(&memory, text.len(), &mut slices);
    slices.answer(packed, memory.ends_with(BEHIND_TEXT) && memory.starts_with(text))
}

fn call_read(text: &[u8], text_len: usize, slices: &mut Slices) -> u64 {
    let Slices { tokens, nodes, values, reports, counts } = slices;
    // Safety: all pointers and lengths are those of live slices, the last five unshared.
    unsafe {
        plank_read(
            text.as_ptr(),
            text_len,
            tokens.slice().as_mut_ptr(),
            tokens.length,
            nodes.slice().as_mut_ptr(),
            nodes.length,
            values.slice().as_mut_ptr(),
            values.length,
            reports.slice().as_mut_ptr(),
            reports.length,
            counts.slice().as_mut_ptr(),
            counts.length,
        )
    }
}

/// What a view answers.
#[derive(Debug, Clone, Copy, PartialEq, Eq)]
pub enum Seen {
    Is(u32),
    None,
    Refused(u32),
    /// No answer of document 01.
    Odd(u64),
}

impl Seen {
    pub fn of(answer: Option<u32>) -> Seen {
        answer.map_or(Seen::None, Seen::Is)
    }

    fn unpacked(packed: u64) -> Seen {
        let low = packed as u32;
        match packed >> 32 {
            0 => Seen::Is(low),
            8 => Seen::Refused(low),
            _ if packed == 1 << 63 => Seen::None,
            _ => Seen::Odd(packed),
        }
    }
}

/// What a view of tokens answers and leaves in the lent words.
#[derive(Debug, PartialEq, Eq)]
pub struct Spanned {
    /// 0 where there is an answer.
    pub seen: Seen,
    words: Vec<u32>,
    stayed_inside: bool,
}

impl Spanned {
    pub fn expected(answer: Option<[u32; 2]>, lent: usize) -> Spanned {
        let mut words = vec![FILL; lent];
        if let (Some(span), Some(start)) = (answer, words.get_mut(..2)) {
            start.copy_from_slice(&span);
        }
        Spanned { seen: Seen::of(answer.map(|_| 0)), words, stayed_inside: true }
    }
}

/// Stands behind the node words, a name: whoever reads on finds a node.
const BEHIND_NODES: [u32; NODE_WIDTH] = [36 << 26, 0, 1, 0, 0, 0];

/// Node words to look at.
pub struct NodeWords {
    memory: Vec<u32>,
    words: Vec<u32>,
}

impl NodeWords {
    pub fn new(words: &[u32]) -> Self {
        NodeWords { memory: [words, &BEHIND_NODES].concat(), words: words.to_vec() }
    }

    /// Are they as they were?
    pub fn is_kept(&self) -> bool {
        self.memory.starts_with(&self.words) && self.memory.ends_with(&BEHIND_NODES)
    }

    pub fn view(&self, which: u32, n: u32, i: u32) -> Seen {
        // Safety: pointer and length are those of a live slice.
        let packed = unsafe { plank_view(which, self.memory.as_ptr(), self.words.len(), n, i) };
        Seen::unpacked(packed)
    }

    pub fn view_count(&self, which: u32, n: u32) -> Seen {
        // Safety: pointer and length are those of a live slice.
        let packed = unsafe { plank_view_count(which, self.memory.as_ptr(), self.words.len(), n) };
        Seen::unpacked(packed)
    }

    pub fn view_span(&self, which: u32, n: u32, lent: usize) -> Spanned {
        let mut span = Lent::new(lent, FILL);
        let slice = span.slice();
        let (nodes, length) = (self.memory.as_ptr(), self.words.len());
        // Safety: both pointers and lengths are those of live slices, the second one unshared.
        let packed =
            unsafe { plank_view_span(which, nodes, length, n, slice.as_mut_ptr(), slice.len()) };
        Spanned { seen: Seen::unpacked(packed), stayed_inside: span.is_kept(), words: span.back() }
    }
}
