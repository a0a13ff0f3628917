//! All rules at once: a state is the set of places in rules at which a match may stand.

use crate::pattern::Pattern;
use std::collections::{BTreeMap, BTreeSet};

pub struct Machine {
    /// The first is where a token begins.
    pub states: Vec<State>,
}

pub struct State {
    /// The state behind each byte that leads on.
    pub ways: Vec<(usize, Vec<u8>)>,
    pub stop: Stop,
}

/// What a token is whose next byte doesn't lead on.
#[derive(Clone, Copy, PartialEq, Eq, PartialOrd, Ord)]
pub enum Stop {
    /// No rule matches.
    Error,
    /// This rule matches what ends so many bytes back.
    Rule { number: usize, back: usize },
}

/// A rule's number, and the piece of it that comes next.
type Place = (usize, usize);

/// Two states with the same places differ where what was matched before them does.
type Key = (BTreeSet<Place>, Stop);

impl Machine {
    pub fn of(rules: &[Pattern]) -> Machine {
        let begin = (0..rules.len()).map(|rule| (rule, 0)).collect();
        let mut keys: Vec<Key> = vec![(begin, Stop::Error)];
        let mut states = Vec::new();
        while states.len() < keys.len() {
            let (places, stop) = keys[states.len()].clone();
            let mut ways: BTreeMap<usize, Vec<u8>> = BTreeMap::new();
            for byte in 0..=255 {
                let Some(key) = behind(rules, &places, stop, byte) else { continue };
                let number = keys.iter().position(|known| *known == key).unwrap_or_else(|| {
                    keys.push(key);
                    keys.len() - 1
                });
                ways.entry(number).or_default().push(byte);
            }
            states.push(State { ways: ways.into_iter().collect(), stop });
        }
        Machine { states }
    }
}

fn behind(rules: &[Pattern], places: &BTreeSet<Place>, stop: Stop, byte: u8) -> Option<Key> {
    let places: BTreeSet<Place> = places
        .iter()
        .filter_map(|(rule, next)| {
            let piece = rules[*rule].pieces.get(*next)?;
            let stays = usize::from(!piece.repeats);
            piece.class.contains(&byte).then_some((*rule, next + stays))
        })
        .collect();
    if places.is_empty() {
        return None;
    }
    let matched = places.iter().filter(|place| is_match(rules, **place)).map(|place| place.0);
    let stop = match (matched.max_by_key(|rule| rules[*rule].is_text), stop) {
        (Some(number), _) => Stop::Rule { number, back: 0 },
        (None, Stop::Rule { number, back }) => Stop::Rule { number, back: back + 1 },
        (None, Stop::Error) => Stop::Error,
    };
    Some((places, stop))
}

fn is_match(rules: &[Pattern], (rule, next): Place) -> bool {
    rules[rule].pieces[next..].iter().all(|piece| piece.repeats)
}
