use crate::Idx;
use std::{fmt, ops::Range};

/// From `start` up to, not with, `end`.
#[derive(Debug, Clone, Copy, PartialEq, Eq)]
pub struct Span<I> {
    pub start: I,
    pub end: I,
}

impl<I> Span<I> {
    pub fn new(start: I, end: I) -> Self {
        Span { start, end }
    }
}

impl<I: Idx> Span<I> {
    pub fn usize_range(self) -> Range<usize> {
        self.start.idx()..self.end.idx()
    }
}

impl<I: Idx> fmt::Display for Span<I> {
    fn fmt(&self, f: &mut fmt::Formatter<'_>) -> fmt::Result {
        write!(f, "{}..{}", self.start.get(), self.end.get())
    }
}
