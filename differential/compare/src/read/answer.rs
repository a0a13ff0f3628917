//! What a call of `read` answers and leaves in the lent slices, and what it should, by the
//! reference.

use crate::{
    answer::{MOST_BYTES, TOKENS_DONT_FIT, TOO_LONG},
    library::COUNT_FILL,
    utf8,
};
use oracle::{End, Lengths, NODE_WIDTH, Refusal, Run, Words};

/// The lengths of all slices that are lent, in words.
#[derive(Debug, Clone, Copy, PartialEq, Eq)]
pub struct Lent {
    pub tokens: usize,
    pub rest: Lengths,
}

/// How many counts are given.
pub const COUNTS: usize = 4;

#[derive(Debug, Clone, PartialEq, Eq)]
pub struct Answer {
    /// 0 where the call was done, else the refusal's number.
    pub number: u32,
    /// 0 where the call was done, else the refusal's place.
    pub place: u32,
    /// Those of tokens, nodes, value words and reports; as they were lent on refusal.
    pub counts: Vec<u64>,
    /// The whole lent slices.
    pub tokens: Vec<u32>,
    pub nodes: Vec<u32>,
    pub values: Vec<u32>,
    pub reports: Vec<u32>,
    /// Is what stands before and behind the slices as it was?
    pub stayed_inside: bool,
}

impl Answer {
    /// The answer where slices of these lengths are lent; none where the reference panicked
    /// before it came so far.
    pub fn expected(run: &Run, lent: Lent) -> Option<Answer> {
        let tokens = run.tokens.len();
        if lent.tokens < tokens {
            return Some(Answer::refused(refusal(TOKENS_DONT_FIT, tokens), lent));
        }
        if let Some(refusal) = run.refusal(lent.rest) {
            return Some(Answer::refused(refusal, lent));
        }
        match &run.end {
            End::Read(words) => Some(Answer::done(&run.tokens, words, lent)),
            End::TooDeep | End::Panicked(_) => None,
        }
    }

    /// The answer to a text that the reference can't be given.
    pub fn unreadable(text: &[u8], lent: Lent) -> Option<Answer> {
        if text.len() > MOST_BYTES {
            return Some(Answer::refused(refusal(TOO_LONG, MOST_BYTES), lent));
        }
        let (number, place) = utf8::checked(text).err()?;
        Some(Answer::refused(refusal(number, place), lent))
    }

    fn done(tokens: &[u32], words: &Words, lent: Lent) -> Answer {
        let Words { nodes, values, reports, .. } = words;
        let counts = [tokens.len(), nodes.len() / NODE_WIDTH, values.len(), reports.len() / 3];
        Answer {
            number: 0,
            place: 0,
            counts: counts.map(|count| count as u64).to_vec(),
            tokens: filled_up(tokens, lent.tokens),
            nodes: filled_up(nodes, lent.rest.nodes),
            values: filled_up(values, lent.rest.values),
            reports: filled_up(reports, lent.rest.reports),
            stayed_inside: true,
        }
    }

    fn refused(refusal: Refusal, lent: Lent) -> Answer {
        Answer {
            number: refusal.number,
            place: refusal.place,
            counts: vec![COUNT_FILL; COUNTS],
            tokens: vec![0; lent.tokens],
            nodes: vec![0; lent.rest.nodes],
            values: vec![0; lent.rest.values],
            reports: vec![0; lent.rest.reports],
            stayed_inside: true,
        }
    }
}

fn refusal(number: u32, place: usize) -> Refusal {
    Refusal { number, place: place as u32 }
}

fn filled_up(words: &[u32], length: usize) -> Vec<u32> {
    let mut words = words.to_vec();
    words.resize(length, 0);
    words
}
