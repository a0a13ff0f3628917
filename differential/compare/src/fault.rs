//! Planted faults, to show that the comparison can fail.

use crate::{library::Lexer, mark};

const DECIMAL_LITERAL: u32 = 67;
const WHITESPACE: u32 = 72;
const LINE_COMMENT: u32 = 73;
const BLOCK_COMMENT: u32 = 74;
const MALFORMED_IDENT_ERROR: u32 = 77;
const UNCLOSED_BLOCK_COMMENT_ERROR: u32 = 79;
const END_BITS: u32 = 25;

/// What a count of 15 bits doesn't hold.
const FULL: usize = 1 << 15;

#[derive(Clone, Copy, Debug, PartialEq)]
pub enum Fault {
    /// A line comment ends at a `\r` too.
    Return,
    /// The count of open comments has 15 bits: the 32,768th that is opened closes all.
    Count,
    /// A byte order mark is one token with the blanks behind it.
    Mark,
    /// A decimal number with a `_` is malformed, as where the table of states has the malformed one
    /// behind `_`. The fault is in the tables' answer; the reference has none.
    Underscore,
}

pub const FAULTS: [(&str, Fault); 4] = [
    ("return", Fault::Return),
    ("count", Fault::Count),
    ("mark", Fault::Mark),
    ("underscore", Fault::Underscore),
];

impl Fault {
    /// Alters the words that a lexer left, where the fault is in this lexer.
    pub fn alter(self, lexer: Lexer, text: &[u8], words: &mut [u32]) {
        if (self, lexer) != (Fault::Underscore, Lexer::Tables) {
            return;
        }
        let mut start = 0;
        for word in words {
            let end = end(*word);
            let is_decimal = *word >> END_BITS == DECIMAL_LITERAL;
            if is_decimal && text.get(start..end).is_some_and(|number| number.contains(&b'_')) {
                *word = MALFORMED_IDENT_ERROR << END_BITS | end as u32;
            }
            start = end;
        }
    }

    /// The reference's tokens, but for those that the fault ends otherwise: the rest of the text is
    /// lexed from there.
    pub fn lex(self, text: &str) -> Vec<u32> {
        let mut words = Vec::new();
        let mut start = 0;
        loop {
            let rest = &text[start..];
            let moved = |word: &u32| word + start as u32;
            let tokens = if start == 0 { self.tokens(rest) } else { oracle::lex(rest) };
            let Some((number, kind, end)) = self.first(rest, &tokens) else {
                words.extend(tokens.iter().map(moved));
                return words;
            };
            words.extend(tokens[..number].iter().map(moved));
            start += end;
            words.push(kind << END_BITS | start as u32);
        }
    }

    /// The tokens of a whole text, before any is ended otherwise.
    fn tokens(self, text: &str) -> Vec<u32> {
        let mut tokens = mark::lex(text);
        let is_joined = text.starts_with(mark::MARK) && tokens[1] >> END_BITS == WHITESPACE;
        if self == Fault::Mark && is_joined {
            tokens.remove(0);
        }
        tokens
    }

    /// The first token that the fault ends otherwise: its number, then its kind and end.
    fn first(self, text: &str, tokens: &[u32]) -> Option<(usize, u32, usize)> {
        let mut start = 0;
        for (number, word) in tokens.iter().enumerate() {
            let end = end(*word);
            if let Some((kind, length)) = self.cut(word >> END_BITS, &text[start..end]) {
                return Some((number, kind, start + length));
            }
            start = end;
        }
        None
    }

    /// The kind and length that the fault gives a token of this kind and spelling.
    fn cut(self, kind: u32, spelling: &str) -> Option<(u32, usize)> {
        match (self, kind) {
            (Fault::Return, LINE_COMMENT) => {
                let place = spelling.find('\r').filter(|place| place + 1 < spelling.len());
                place.map(|place| (LINE_COMMENT, place + 1))
            }
            (Fault::Count, BLOCK_COMMENT | UNCLOSED_BLOCK_COMMENT_ERROR) => {
                full_count(spelling.as_bytes()).map(|end| (BLOCK_COMMENT, end))
            }
            _ => None,
        }
    }
}

fn end(word: u32) -> usize {
    (word & ((1 << END_BITS) - 1)) as usize
}

/// Where so many comments are open that the count is full.
fn full_count(comment: &[u8]) -> Option<usize> {
    let mut open = 0;
    let mut at = 0;
    while open < FULL {
        match comment.get(at..at + 2)? {
            b"/*" => (open, at) = (open + 1, at + 2),
            b"*/" => (open, at) = (open - 1, at + 2),
            _ => at += 1,
        }
    }
    Some(at)
}

#[cfg(test)]
mod tests {
    use super::Fault;
    use crate::library::Lexer;

    fn taken_apart(words: &[u32]) -> Vec<(u32, u32)> {
        words.iter().map(|word| (word >> 25, word & 0x1ffff)).collect()
    }

    fn tokens(fault: Fault, text: &str) -> Vec<(u32, u32)> {
        taken_apart(&fault.lex(text))
    }

    /// The reference's tokens, altered as a lexer's would be, with a word of 0 behind them.
    fn altered(fault: Fault, lexer: Lexer, text: &str) -> Vec<u32> {
        let mut words = [oracle::lex(text), vec![0]].concat();
        fault.alter(lexer, text.as_bytes(), &mut words);
        words
    }

    #[test]
    fn a_return_ends_the_comment() {
        let found = tokens(Fault::Return, "; //a\rb");
        assert_eq!(found, [(0, 1), (72, 2), (73, 6), (65, 7), (81, 7)]);
    }

    #[test]
    fn a_full_count_ends_the_comment() {
        let opened = |count| "/*".repeat(count);
        assert_eq!(tokens(Fault::Count, &opened(32_768)), [(74, 65_536), (81, 65_536)]);
        assert_eq!(tokens(Fault::Count, &opened(32_767)), [(79, 65_534), (81, 65_534)]);
    }

    #[test]
    fn a_mark_is_joined_with_blanks() {
        assert_eq!(tokens(Fault::Mark, "\u{feff} ;"), [(72, 4), (0, 5), (81, 5)]);
        assert_eq!(tokens(Fault::Mark, "\u{feff};"), [(72, 3), (0, 4), (81, 4)]);
    }

    #[test]
    fn an_underscore_makes_a_decimal_malformed_in_the_tables() {
        let found = altered(Fault::Underscore, Lexer::Tables, "a_1 1_0;12");
        let wanted = [(65, 3), (72, 4), (77, 7), (0, 8), (67, 10), (81, 10), (0, 0)];
        assert_eq!(taken_apart(&found), wanted);
        let as_before = |fault, lexer, text: &str| {
            assert_eq!(altered(fault, lexer, text), [oracle::lex(text), vec![0]].concat());
        };
        for text in ["0x1_0", "0b1_0", "a_1", "12", "1_a", "\"1_0\"", "/*1_0*/"] {
            as_before(Fault::Underscore, Lexer::Tables, text);
        }
        as_before(Fault::Underscore, Lexer::Branching, "1_0");
        as_before(Fault::Return, Lexer::Tables, "1_0 //a\rb");
    }

    #[test]
    fn other_texts_are_as_before() {
        for text in ["", "a\r", "//a\n", "//a\r", "/* \r */", "/*/**/*/;/*", " ;", "1_0"] {
            for fault in [Fault::Return, Fault::Count, Fault::Mark, Fault::Underscore] {
                assert_eq!(fault.lex(text), oracle::lex(text), "{text:?}");
            }
        }
    }
}
