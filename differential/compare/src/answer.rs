//! What a call answers and leaves in the lent slice, and what it should, by the reference.

use crate::{fault::Fault, mark, utf8};

pub const MOST_BYTES: usize = 65_536;

pub const TOO_LONG: u32 = 2;
pub const TOKENS_DONT_FIT: u32 = 4;

#[derive(Debug, Clone, PartialEq, Eq)]
pub struct Answer {
    /// 0 where the call was done, else the refusal's number.
    pub number: u32,
    /// The count of tokens, or the refusal's place.
    pub value: u32,
    /// The whole lent slice.
    pub words: Vec<u32>,
    /// Is what stands before and behind the slice as it was?
    pub stayed_inside: bool,
}

impl Answer {
    fn done(tokens: &[u32], lent: usize) -> Answer {
        let mut words = tokens.to_vec();
        words.resize(lent, 0);
        Answer { number: 0, value: tokens.len() as u32, words, stayed_inside: true }
    }

    fn refused(number: u32, place: usize, lent: usize) -> Answer {
        Answer { number, value: place as u32, words: vec![0; lent], stayed_inside: true }
    }
}

/// What the reference says of a text, whatever the slice.
pub enum Reference {
    Refused { number: u32, place: usize },
    Tokens(Vec<u32>),
}

impl Reference {
    pub fn of(text: &[u8], fault: Option<Fault>) -> Reference {
        if text.len() > MOST_BYTES {
            return Reference::Refused { number: TOO_LONG, place: MOST_BYTES };
        }
        match utf8::checked(text) {
            Ok(text) => {
                Reference::Tokens(fault.map_or_else(|| mark::lex(text), |fault| fault.lex(text)))
            }
            Err((number, place)) => Reference::Refused { number, place },
        }
    }

    /// The answer where so many words are lent.
    pub fn answer(&self, lent: usize) -> Answer {
        match self {
            Reference::Refused { number, place } => Answer::refused(*number, *place, lent),
            Reference::Tokens(tokens) if tokens.len() <= lent => Answer::done(tokens, lent),
            Reference::Tokens(tokens) => Answer::refused(TOKENS_DONT_FIT, tokens.len(), lent),
        }
    }
}
