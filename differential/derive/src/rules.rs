//! The chart's rules, read from their text.

use crate::tokens::{Kinds, class, kind_of};
use std::collections::HashMap;

#[derive(Debug, Clone, Copy, PartialEq, Eq)]
pub enum Part {
    /// One token of these kinds.
    Token(Kinds),
    /// What a rule of this number derives.
    Rule(usize),
    /// Nothing, where the next token is none of these kinds.
    Not(Kinds),
}

#[derive(Debug)]
pub struct Rules {
    /// For each rule its alternatives.
    pub alternatives: Vec<Vec<Vec<Part>>>,
    pub file: usize,
}

impl Rules {
    pub fn chart() -> Rules {
        Rules::read(include_str!("chart.txt"))
    }

    /// With a fault: a Block, If or Match in mid-block may be followed by anything.
    pub fn with_fault() -> Rules {
        let text = include_str!("chart.txt");
        let fault = text.replace("braced not (\".\" \"(\" \"{\" \"=\" \";\" BINARY)", "braced");
        assert!(fault != text);
        Rules::read(&fault)
    }

    fn read(text: &str) -> Rules {
        let lines = text.lines();
        let lines = lines.filter(|line| !line.is_empty() && !line.starts_with('#'));
        let lines: Vec<String> = lines.flat_map(both_modes).collect();
        let mut numbers = HashMap::new();
        for line in &lines {
            let next = numbers.len();
            numbers.entry(sides(line).0.to_string()).or_insert(next);
        }
        let mut alternatives = vec![Vec::new(); numbers.len()];
        for line in &lines {
            let (left, right) = sides(line);
            let parts = right.split(" | ").map(|parts| read_parts(parts, &numbers));
            alternatives[numbers[left]].extend(parts);
        }
        Rules { alternatives, file: numbers["file"] }
    }
}

/// The bar in quotes is a token.
fn both_modes(line: &str) -> Vec<String> {
    let line = format!("{line} ").replace("\"|\"", "BAR").replace("= |", "= EMPTY |");
    match line.contains('~') && !line.contains("\"~\"") {
        true => vec![line.replace('~', ""), line.replace('~', "!")],
        false => vec![line],
    }
}

fn sides(line: &str) -> (&str, &str) {
    let (left, right) = line.split_once(" = ").expect("a rule has two sides");
    (left.trim(), right.trim())
}

fn read_parts(text: &str, numbers: &HashMap<String, usize>) -> Vec<Part> {
    let mut parts = Vec::new();
    let mut words = text.split_whitespace();
    while let Some(word) = words.next() {
        match word {
            "EMPTY" => {}
            "not" => parts.push(Part::Not(read_kinds(&mut words))),
            _ => parts.push(token(word).map_or_else(|| rule(word, numbers), Part::Token)),
        }
    }
    parts
}

fn rule(word: &str, numbers: &HashMap<String, usize>) -> Part {
    Part::Rule(*numbers.get(word).unwrap_or_else(|| panic!("no rule is named {word}")))
}

/// What stands in brackets after `not`.
fn read_kinds<'a>(words: &mut impl Iterator<Item = &'a str>) -> Kinds {
    let mut kinds = 0;
    for word in words {
        let open = word.strip_prefix('(').filter(|rest| !rest.is_empty()).unwrap_or(word);
        let closed = open.strip_suffix(')').filter(|_| open != "\"(\"");
        kinds |= token(closed.unwrap_or(open)).expect("a token stands after `not`");
        if closed.is_some() {
            break;
        }
    }
    kinds
}

fn token(word: &str) -> Option<Kinds> {
    if word == "BAR" {
        return Some(1 << kind_of("|"));
    }
    let quoted = word.strip_prefix('"').and_then(|rest| rest.strip_suffix('"'));
    quoted.map(|spelling| 1 << kind_of(spelling)).or_else(|| class(word))
}
