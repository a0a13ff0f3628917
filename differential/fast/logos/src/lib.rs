//! Fast stand-in for the `logos` crate, as far as lexer.rs uses it. As there, the derive makes one
//! machine of all rules and writes it out as code.
//!
//! The longest match wins; at equal length a `#[token]` beats a `#[regex]`.
//! A character at which nothing matches is one error item, the error type's default.

use std::{marker::PhantomData, ops::Range};

pub use fast_logos_derive::Logos;

pub trait Logos: Copy + 'static {
    type Error: Default;

    /// Takes the token that starts at the lexer's place; a byte stands there.
    fn take(lexer: &mut Lexer<'_, Self>) -> Result<Self, Self::Error>;

    #[inline]
    fn lexer(source: &str) -> Lexer<'_, Self> {
        Lexer { source, start: 0, end: 0, tokens: PhantomData }
    }
}

/// What a callback may return: nothing, or an error in place of its token.
pub trait Outcome<T, E> {
    fn settle(self, token: T) -> Result<T, E>;
}

impl<T, E> Outcome<T, E> for () {
    #[inline]
    fn settle(self, token: T) -> Result<T, E> {
        Ok(token)
    }
}

impl<T, E> Outcome<T, E> for Result<(), E> {
    #[inline]
    fn settle(self, token: T) -> Result<T, E> {
        self.map(|()| token)
    }
}

#[derive(Debug, Clone)]
pub struct Lexer<'s, T> {
    source: &'s str,
    start: usize,
    end: usize,
    tokens: PhantomData<T>,
}

impl<'s, T> Lexer<'s, T> {
    #[inline]
    pub fn remainder(&self) -> &'s str {
        &self.source[self.end..]
    }

    /// Makes the current token longer by so many bytes.
    #[inline]
    pub fn bump(&mut self, bytes: usize) {
        self.end += bytes;
        assert!(self.source.is_char_boundary(self.end), "bump into a character");
    }

    #[inline]
    pub fn span(&self) -> Range<usize> {
        self.start..self.end
    }

    /// The byte at an offset into the source, for the machine.
    #[inline]
    pub fn byte(&self, at: usize) -> Option<u8> {
        self.source.as_bytes().get(at).copied()
    }

    /// Ends the current token, for the machine.
    #[inline]
    pub fn end_at(&mut self, at: usize) {
        self.end = at;
    }

    /// Makes one character the current token, for the machine.
    #[inline]
    pub fn end_behind_character(&mut self) {
        let is_within = |byte: &&u8| **byte & 0b1100_0000 == 0b1000_0000;
        let others = self.source.as_bytes()[self.start + 1..].iter().take_while(is_within);
        self.end = self.start + 1 + others.count();
    }
}

impl<T: Logos> Iterator for Lexer<'_, T> {
    type Item = Result<T, T::Error>;

    #[inline]
    fn next(&mut self) -> Option<Self::Item> {
        self.start = self.end;
        (self.start < self.source.len()).then(|| T::take(self))
    }
}
