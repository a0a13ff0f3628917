//! Small damage to a text.

use crate::{rng::Rng, soup::TOKENS};

/// Alters a text in one to four places; it stays UTF-8.
pub fn characters(rng: &mut Rng, text: &str) -> String {
    let mut text: Vec<char> = text.chars().collect();
    for _ in 0..1 + rng.below(4) {
        alter(rng, &mut text);
    }
    text.into_iter().collect()
}

fn alter(rng: &mut Rng, text: &mut Vec<char>) {
    let start = rng.below(text.len() + 1);
    let end = (start + rng.below(8)).min(text.len());
    match rng.below(5) {
        0 => drop(text.drain(start..end)),
        1 => text.truncate(start),
        2 => {
            let token = rng.pick(TOKENS);
            text.splice(start..start, token.chars());
        }
        3 => {
            let token = rng.pick(TOKENS);
            text.splice(start..end, token.chars());
        }
        _ => {
            let copy = text[start..end].to_vec();
            let place = rng.below(text.len() + 1);
            text.splice(place..place, copy);
        }
    }
}
