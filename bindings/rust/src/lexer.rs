//! Tokens (lexer.rs of the Plank parser).

pub use crate::numbers::{ErrorToken, Token};

use crate::{
    numbers::TOKEN_LOW,
    raw::{self, Lengths},
    refusal::Refusal,
};
use std::fmt;

/// Numbers that count one thing each.
macro_rules! index {
    ($(#[$meta:meta])* $name:ident) => {
        $(#[$meta])*
        #[derive(Debug, Clone, Copy, PartialEq, Eq, PartialOrd, Ord, Hash)]
        pub struct $name(u32);

        impl $name {
            pub const ZERO: Self = Self(0);

            pub const fn new(number: u32) -> Self {
                Self(number)
            }

            pub const fn get(self) -> u32 {
                self.0
            }
        }

        impl std::fmt::Display for $name {
            fn fmt(&self, f: &mut std::fmt::Formatter<'_>) -> std::fmt::Result {
                self.0.fmt(f)
            }
        }
    };
}
pub(crate) use index;

index! {
    /// The number of a token.
    TokenIdx
}

index! {
    /// An offset in a text, in bytes.
    SourceByteOffset
}

/// From the first to the one past the last.
#[derive(Debug, Clone, Copy, PartialEq, Eq, Hash)]
pub struct Span<I> {
    pub start: I,
    pub end: I,
}

impl<I> Span<I> {
    pub const fn new(start: I, end: I) -> Self {
        Self { start, end }
    }
}

pub type TokenSpan = Span<TokenIdx>;

pub type SourceSpan = Span<SourceByteOffset>;

impl Token {
    /// Passed over by the parser.
    pub const fn is_trivia(self) -> bool {
        matches!(
            self,
            Token::Whitespace
                | Token::LineComment
                | Token::BlockComment
                | Token::InvalidCharError
                | Token::MalformedIdentError
                | Token::UnclosedBlockCommentError
                | Token::AtWithoutIdentError
        )
    }

    pub const fn lex_error(self) -> Option<ErrorToken> {
        match self {
            Token::InvalidCharError => Some(ErrorToken::InvalidChar),
            Token::MalformedIdentError => Some(ErrorToken::MalformedIdent),
            Token::MultilineStringError => Some(ErrorToken::MultilineString),
            Token::UnclosedBlockCommentError => Some(ErrorToken::UnclosedBlockComment),
            Token::UnclosedStringError => Some(ErrorToken::UnclosedString),
            Token::AtWithoutIdentError => Some(ErrorToken::AtWithoutIdent),
            _ => None,
        }
    }
}

impl fmt::Display for Token {
    fn fmt(&self, f: &mut fmt::Formatter<'_>) -> fmt::Result {
        fmt::Debug::fmt(self, f)
    }
}

/// The tokens of a text.
#[derive(Debug, Clone, PartialEq, Eq)]
pub struct Lexed {
    /// Each word is a token's, with a kind that there is.
    words: Vec<u32>,
}

impl Lexed {
    /// Lexes a text, which may be a `str` or bytes.
    pub fn lex(source: &(impl AsRef<[u8]> + ?Sized)) -> Result<Self, Refusal> {
        let text = source.as_ref();
        let mut words = vec![0; Lengths::enough(text.len()).tokens];
        let count = raw::lex(text, &mut words)?;
        words.truncate(count);
        Ok(Self::from_words(words).expect("token words of a library that this crate is for"))
    }

    /// Token words, or the first one whose kind there isn't.
    pub(crate) fn from_words(words: Vec<u32>) -> Result<Self, TokenIdx> {
        match words.iter().position(|word| Token::from_number(word >> TOKEN_LOW).is_none()) {
            Some(at) => Err(TokenIdx::new(at as u32)),
            None => Ok(Self { words }),
        }
    }

    /// The words themselves, as docs/FORMAT.md has them.
    pub fn words(&self) -> &[u32] {
        &self.words
    }

    /// How many tokens there are, Eof included.
    #[allow(clippy::len_without_is_empty)]
    pub fn len(&self) -> TokenIdx {
        TokenIdx::new(self.words.len() as u32)
    }

    fn word(&self, index: TokenIdx) -> Option<u32> {
        self.words.get(index.get() as usize).copied()
    }

    fn end(&self, index: TokenIdx) -> Option<SourceByteOffset> {
        self.word(index).map(|word| SourceByteOffset::new(word & ((1 << TOKEN_LOW) - 1)))
    }

    fn token_src_start(&self, index: TokenIdx) -> Option<SourceByteOffset> {
        match index.get().checked_sub(1) {
            None => Some(SourceByteOffset::ZERO),
            Some(before) => self.end(TokenIdx::new(before)),
        }
    }

    /// None past the tokens.
    pub fn token_src_span(&self, index: TokenIdx) -> Option<SourceSpan> {
        Some(Span::new(self.token_src_start(index)?, self.end(index)?))
    }

    /// The part of the text from the first token on, up to where the end token starts. None past
    /// the tokens.
    pub fn tokens_src_span(&self, tokens: TokenSpan) -> Option<SourceSpan> {
        Some(Span::new(self.token_src_start(tokens.start)?, self.token_src_start(tokens.end)?))
    }

    /// None past the tokens.
    pub fn get(&self, index: TokenIdx) -> Option<(Token, SourceSpan)> {
        let token = Token::from_number(self.word(index)? >> TOKEN_LOW)?;
        Some((token, self.token_src_span(index)?))
    }

    pub fn iter(&self) -> impl Iterator<Item = (Token, SourceSpan)> {
        (0..self.len().get()).filter_map(|index| self.get(TokenIdx::new(index)))
    }
}
