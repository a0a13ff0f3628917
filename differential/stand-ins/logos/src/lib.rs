//! Stand-in for the `logos` crate, as far as lexer.rs uses it.
//!
//! The longest match wins; at equal length a `#[token]` beats a `#[regex]`.
//! A character at which nothing matches is one error item, the error type's default.

mod pattern;

use pattern::Pattern;
use std::{marker::PhantomData, ops::Range};

pub use logos_derive::Logos;

pub trait Logos: Copy + 'static {
    type Error: Default;

    fn rules() -> &'static [Rule<Self>];

    fn lexer(source: &str) -> Lexer<'_, Self> {
        Lexer { source, start: 0, end: 0, tokens: PhantomData }
    }
}

type Callback<T> = fn(&mut Lexer<'_, T>) -> Result<(), <T as Logos>::Error>;

/// One `#[token(..)]` or `#[regex(..)]` attribute with the variant that it stands on.
pub struct Rule<T: Logos> {
    pattern: Pattern,
    token: T,
    callback: Option<Callback<T>>,
}

impl<T: Logos> Rule<T> {
    pub fn token(text: &'static str, token: T) -> Self {
        Rule { pattern: Pattern::Text(text), token, callback: None }
    }

    pub fn regex(source: &str, token: T) -> Self {
        Rule { pattern: Pattern::regex(source), token, callback: None }
    }

    pub fn with(self, callback: Callback<T>) -> Self {
        Rule { callback: Some(callback), ..self }
    }

    fn settle(&self, lexer: &mut Lexer<'_, T>) -> Result<T, T::Error> {
        match self.callback {
            Some(callback) => callback(lexer).map(|()| self.token),
            None => Ok(self.token),
        }
    }
}

/// What a callback may return: nothing, or an error in place of its token.
pub trait Outcome<E> {
    fn settle(self) -> Result<(), E>;
}

impl<E> Outcome<E> for () {
    fn settle(self) -> Result<(), E> {
        Ok(())
    }
}

impl<E> Outcome<E> for Result<(), E> {
    fn settle(self) -> Result<(), E> {
        self
    }
}

#[derive(Debug, Clone)]
pub struct Lexer<'s, T> {
    source: &'s str,
    start: usize,
    end: usize,
    tokens: PhantomData<T>,
}

impl<'s, T> Lexer<'s, T> {
    pub fn remainder(&self) -> &'s str {
        &self.source[self.end..]
    }

    /// Makes the current token longer by so many bytes.
    pub fn bump(&mut self, bytes: usize) {
        self.end += bytes;
        assert!(self.source.is_char_boundary(self.end), "bump into a character");
    }

    pub fn span(&self) -> Range<usize> {
        self.start..self.end
    }
}

impl<T: Logos> Iterator for Lexer<'_, T> {
    type Item = Result<T, T::Error>;

    fn next(&mut self) -> Option<Self::Item> {
        self.start = self.end;
        let rest = self.remainder();
        let first = rest.chars().next()?;
        let Some((len, rule)) = longest_match(T::rules(), rest.as_bytes()) else {
            self.end += first.len_utf8();
            return Some(Err(T::Error::default()));
        };
        self.end += len;
        Some(rule.settle(self))
    }
}

fn longest_match<'r, T: Logos>(rules: &'r [Rule<T>], rest: &[u8]) -> Option<(usize, &'r Rule<T>)> {
    rules
        .iter()
        .filter_map(|rule| Some((rule.pattern.match_len(rest)?, rule)))
        .max_by_key(|(len, rule)| (*len, rule.pattern.is_text()))
}
