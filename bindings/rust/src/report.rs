//! Reports: what is wrong in a text of which a tree was made all the same.

use crate::{
    lexer::{ErrorToken, SourceByteOffset, SourceSpan, Span, Token},
    numbers::{REPORT_LOW, REPORT_WIDTH, ReportTag},
};
use std::fmt;

#[derive(Debug, Clone, Copy, PartialEq, Eq, Hash)]
pub struct Report {
    pub kind: ReportKind,
    pub span: SourceSpan,
}

/// What is wrong, with 01's detail. `NonAscii` is reserved: no text has such a report.
#[derive(Debug, Clone, Copy, PartialEq, Eq, Hash)]
pub enum ReportKind {
    LexerError(ErrorToken),
    Unexpected { found: Token },
    MissingToken { wanted: Token },
    MissingSpecific { wanted: Token },
    BuiltinAsName,
    FieldAfterMethod,
    StarInGroup,
    PathInGroup,
    EmptyGroup,
    NeedlessBraces,
    NonAscii,
    BadHexEscape,
    UnknownEscape(char),
    NonHexDigit(char),
    OddDigits,
    BackslashAtEnd,
}

impl ReportKind {
    fn from_numbers(kind: u32, detail: u32) -> Option<Self> {
        let token = Token::from_number(detail);
        Some(match ReportTag::from_number(kind)? {
            ReportTag::LexerError => Self::LexerError(ErrorToken::from_number(detail)?),
            ReportTag::Unexpected => Self::Unexpected { found: token? },
            ReportTag::MissingToken => Self::MissingToken { wanted: token? },
            ReportTag::MissingSpecific => Self::MissingSpecific { wanted: token? },
            ReportTag::BuiltinAsName => Self::BuiltinAsName,
            ReportTag::FieldAfterMethod => Self::FieldAfterMethod,
            ReportTag::StarInGroup => Self::StarInGroup,
            ReportTag::PathInGroup => Self::PathInGroup,
            ReportTag::EmptyGroup => Self::EmptyGroup,
            ReportTag::NeedlessBraces => Self::NeedlessBraces,
            ReportTag::NonAscii => Self::NonAscii,
            ReportTag::BadHexEscape => Self::BadHexEscape,
            ReportTag::UnknownEscape => Self::UnknownEscape(char::from_u32(detail)?),
            ReportTag::NonHexDigit => Self::NonHexDigit(char::from_u32(detail)?),
            ReportTag::OddDigits => Self::OddDigits,
            ReportTag::BackslashAtEnd => Self::BackslashAtEnd,
        })
    }

    /// 01's number of the kind.
    pub fn number(self) -> u32 {
        let tag = match self {
            Self::LexerError(_) => ReportTag::LexerError,
            Self::Unexpected { .. } => ReportTag::Unexpected,
            Self::MissingToken { .. } => ReportTag::MissingToken,
            Self::MissingSpecific { .. } => ReportTag::MissingSpecific,
            Self::BuiltinAsName => ReportTag::BuiltinAsName,
            Self::FieldAfterMethod => ReportTag::FieldAfterMethod,
            Self::StarInGroup => ReportTag::StarInGroup,
            Self::PathInGroup => ReportTag::PathInGroup,
            Self::EmptyGroup => ReportTag::EmptyGroup,
            Self::NeedlessBraces => ReportTag::NeedlessBraces,
            Self::NonAscii => ReportTag::NonAscii,
            Self::BadHexEscape => ReportTag::BadHexEscape,
            Self::UnknownEscape(_) => ReportTag::UnknownEscape,
            Self::NonHexDigit(_) => ReportTag::NonHexDigit,
            Self::OddDigits => ReportTag::OddDigits,
            Self::BackslashAtEnd => ReportTag::BackslashAtEnd,
        };
        tag.number()
    }
}

impl Report {
    /// None where there is no such kind or detail.
    pub(crate) fn from_words(words: [u32; REPORT_WIDTH]) -> Option<Self> {
        let [head, start, end] = words;
        let kind = ReportKind::from_numbers(head >> REPORT_LOW, head & ((1 << REPORT_LOW) - 1))?;
        let span = Span::new(SourceByteOffset::new(start), SourceByteOffset::new(end));
        Some(Self { kind, span })
    }
}

impl fmt::Display for Report {
    fn fmt(&self, f: &mut fmt::Formatter<'_>) -> fmt::Result {
        write!(f, "{}..{}: ", self.span.start, self.span.end)?;
        match self.kind {
            ReportKind::LexerError(error) => write!(f, "{error:?}"),
            ReportKind::Unexpected { found } => write!(f, "unexpected {found}"),
            ReportKind::MissingToken { wanted } | ReportKind::MissingSpecific { wanted } => {
                write!(f, "missing {wanted}")
            }
            ReportKind::BuiltinAsName => {
                write!(f, "a builtin's name where a plain name must stand")
            }
            ReportKind::FieldAfterMethod => write!(f, "a field after a method"),
            ReportKind::StarInGroup => write!(f, "a star in an import group"),
            ReportKind::PathInGroup => write!(f, "a path in an import group"),
            ReportKind::EmptyGroup => write!(f, "an empty import group"),
            ReportKind::NeedlessBraces => write!(f, "an import group of one"),
            ReportKind::NonAscii => write!(f, "a kind that is never made"),
            ReportKind::BadHexEscape => write!(f, "a bad \\x in a string"),
            ReportKind::UnknownEscape(c) => write!(f, "an unknown {c:?} after a backslash"),
            ReportKind::NonHexDigit(c) => write!(f, "{c:?} is no hexadecimal digit"),
            ReportKind::OddDigits => write!(f, "an odd number of hexadecimal digits"),
            ReportKind::BackslashAtEnd => write!(f, "a backslash at a string's end"),
        }
    }
}
