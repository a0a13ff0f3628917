//! Why the library refuses (01, "Refusals, by who can cause them").

use crate::{
    cst::NodeIdx,
    lexer::{SourceByteOffset, TokenIdx},
    numbers::{MAX_TEXT, RefusalTag},
};
use std::fmt;

/// A refusal, with what its place is.
#[derive(Debug, Clone, Copy, PartialEq, Eq, Hash)]
#[non_exhaustive]
pub enum Refusal {
    /// A byte starts no sequence of UTF-8: the text is in another encoding. The byte's offset.
    NotUtf8Start {
        offset: SourceByteOffset,
    },
    /// A later byte of a sequence isn't allowed: the text is in another encoding. The offset where
    /// the sequence starts.
    NotUtf8Later {
        offset: SourceByteOffset,
    },
    /// The text ends inside a sequence that was right so far: it was cut. The offset where the
    /// sequence starts.
    NotUtf8Cut {
        offset: SourceByteOffset,
    },
    TooLong,
    /// The token that was reached.
    TooDeep {
        token: TokenIdx,
    },
    /// The words that are needed.
    TokensDontFit {
        needed: u32,
    },
    NodesDontFit {
        token: TokenIdx,
    },
    ValuesDontFit {
        token: TokenIdx,
    },
    ReportsDontFit {
        token: TokenIdx,
    },
    /// The node that was looked at.
    AlteredNodes {
        node: NodeIdx,
    },
    /// One that a later library has.
    Other {
        number: u32,
        place: u32,
    },
}

impl Refusal {
    /// A refusal as the library tells it: its number times 2 to the 32nd, and its place.
    pub(crate) fn from_code(code: u64) -> Self {
        let (number, place) = ((code >> 32) as u32, code as u32);
        let token = TokenIdx::new(place);
        let offset = SourceByteOffset::new(place);
        match RefusalTag::from_number(number) {
            Some(RefusalTag::NotUtf8Start) => Refusal::NotUtf8Start { offset },
            Some(RefusalTag::NotUtf8Later) => Refusal::NotUtf8Later { offset },
            Some(RefusalTag::NotUtf8Cut) => Refusal::NotUtf8Cut { offset },
            Some(RefusalTag::TooLong) if place as usize == MAX_TEXT => Refusal::TooLong,
            Some(RefusalTag::TooDeep) => Refusal::TooDeep { token },
            Some(RefusalTag::TokensDontFit) => Refusal::TokensDontFit { needed: place },
            Some(RefusalTag::NodesDontFit) => Refusal::NodesDontFit { token },
            Some(RefusalTag::ValuesDontFit) => Refusal::ValuesDontFit { token },
            Some(RefusalTag::ReportsDontFit) => Refusal::ReportsDontFit { token },
            Some(RefusalTag::AlteredNodes) => Refusal::AlteredNodes { node: NodeIdx::new(place) },
            Some(RefusalTag::TooLong) | None => Refusal::Other { number, place },
        }
    }

    /// 01's number.
    pub fn number(self) -> u32 {
        let tag = match self {
            Refusal::NotUtf8Start { .. } => RefusalTag::NotUtf8Start,
            Refusal::NotUtf8Later { .. } => RefusalTag::NotUtf8Later,
            Refusal::NotUtf8Cut { .. } => RefusalTag::NotUtf8Cut,
            Refusal::TooLong => RefusalTag::TooLong,
            Refusal::TooDeep { .. } => RefusalTag::TooDeep,
            Refusal::TokensDontFit { .. } => RefusalTag::TokensDontFit,
            Refusal::NodesDontFit { .. } => RefusalTag::NodesDontFit,
            Refusal::ValuesDontFit { .. } => RefusalTag::ValuesDontFit,
            Refusal::ReportsDontFit { .. } => RefusalTag::ReportsDontFit,
            Refusal::AlteredNodes { .. } => RefusalTag::AlteredNodes,
            Refusal::Other { number, .. } => return number,
        };
        tag.number()
    }

    /// Whether the text isn't UTF-8, in whichever way.
    pub fn is_not_utf8(self) -> bool {
        use Refusal::*;
        matches!(self, NotUtf8Start { .. } | NotUtf8Later { .. } | NotUtf8Cut { .. })
    }

    /// 01's place.
    pub fn place(self) -> u32 {
        match self {
            Refusal::NotUtf8Start { offset }
            | Refusal::NotUtf8Later { offset }
            | Refusal::NotUtf8Cut { offset } => offset.get(),
            Refusal::TooLong => MAX_TEXT as u32,
            Refusal::TooDeep { token }
            | Refusal::NodesDontFit { token }
            | Refusal::ValuesDontFit { token }
            | Refusal::ReportsDontFit { token } => token.get(),
            Refusal::TokensDontFit { needed } => needed,
            Refusal::AlteredNodes { node } => node.get(),
            Refusal::Other { place, .. } => place,
        }
    }
}

impl fmt::Display for Refusal {
    fn fmt(&self, f: &mut fmt::Formatter<'_>) -> fmt::Result {
        write!(f, "refused {}: ", self.number())?;
        match self {
            Refusal::NotUtf8Start { offset } => {
                write!(f, "not UTF-8: no character starts at byte {offset}")
            }
            Refusal::NotUtf8Later { offset } => {
                write!(f, "not UTF-8: a character is broken at byte {offset}")
            }
            Refusal::NotUtf8Cut { offset } => {
                write!(f, "cut off inside a character at byte {offset}")
            }
            Refusal::TooLong => write!(f, "over {MAX_TEXT} bytes"),
            Refusal::TooDeep { token } => write!(f, "nested too deep at token {token}"),
            Refusal::TokensDontFit { needed } => write!(f, "the tokens need {needed} words"),
            Refusal::NodesDontFit { token } => write!(f, "the nodes don't fit, at token {token}"),
            Refusal::ValuesDontFit { token } => write!(f, "the values don't fit, at token {token}"),
            Refusal::ReportsDontFit { token } => {
                write!(f, "the reports don't fit, at token {token}")
            }
            Refusal::AlteredNodes { node } => write!(f, "the words of node {node} were altered"),
            Refusal::Other { place, .. } => write!(f, "at {place}"),
        }
    }
}

impl std::error::Error for Refusal {}
