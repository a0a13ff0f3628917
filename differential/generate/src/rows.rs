//! Rows of tokens at the places where the parser reads something of its own.

use crate::{rng::Rng, soup::TOKENS};

/// A token for each that the parser tells from the others; of the binary operators one of some
/// levels.
const GRAMMAR: [&str; 54] = [
    ";", ",", ":", ".", "$", "{", "}", "(", ")", "::", "=>", "=", "+", "-", "*", "==", "<", "!",
    "~", "&", "or", "if", "else", "fn", "eager", "let", "mut", "const", "init", "run", "struct",
    "tuple", "return", "comptime", "inline", "while", "true", "pub", "use", "as", "match", "Self",
    "a", "b", "@a", "1", "0x2", "\"s\"", "hex\"4\"", "\"", "#", "1a", "[", "@",
];

/// What stands before a row and behind it.
const PLACES: [(&str, &str); 46] = [
    ("", ""),
    ("init {", "}"),
    ("run { a; ", "} const b = 1;"),
    ("const a = ", ";"),
    ("const a = ", "const b = 1;"),
    ("const a: ", "= 1;"),
    ("const ", ";"),
    ("use ", ";"),
    ("use a::", ";"),
    ("use a::{", "};"),
    ("use a::{b, ", "};"),
    ("use a::{b::", "};"),
    ("use a::{b ", ", c};"),
    ("use a ", ";"),
    ("pub ", ""),
    ("const a = (", ");"),
    ("const a = (b, ", ");"),
    ("const a = f(", ");"),
    ("const a = b {", "};"),
    ("const a = b { c: ", "};"),
    ("const a = tuple {", "};"),
    ("const a = struct ", "{};"),
    ("const a = struct {", "};"),
    ("const a = struct { b: c ", "};"),
    ("const a = struct { fn f() a {} ", "};"),
    ("const a = eager ", "() b {};"),
    ("const a = fn(", ") b {};"),
    ("const a = fn(a: ", ") b {};"),
    ("const a = fn() ", "{};"),
    ("const a = match b {", "};"),
    ("const a = match b { else ", "=> c };"),
    ("const a = match b { c ", ", };"),
    ("const a = match ", "{};"),
    ("init { if ", "{} }"),
    ("init { if a {} ", "}"),
    ("init { if a {} else ", "{} }"),
    ("init { while ", "{} }"),
    ("init { inline ", "{} }"),
    ("init { let ", "; }"),
    ("init { comptime ", "}"),
    ("init { return ", "; }"),
    ("init { a ", "}"),
    ("init { {} ", "}"),
    ("init { comptime {} ", "}"),
    ("const a = -", ";"),
    ("const a = b.", ";"),
];

const BETWEEN: [&str; 8] = ["", "", " ", " ", " ", "\n", "/**/", "//\n"];

pub fn any_token(rng: &mut Rng) -> &'static str {
    if rng.chance(1, 5) { rng.pick(TOKENS) } else { rng.pick(&GRAMMAR) }
}

/// A row of tokens at some place, sometimes with nothing behind it.
pub fn row(rng: &mut Rng) -> String {
    let (before, behind) = PLACES[rng.below(PLACES.len())];
    let mut text = before.to_string();
    for _ in 0..1 + rng.below(10) {
        text.push_str(any_token(rng));
        text.push_str(rng.pick(&BETWEEN));
    }
    if !rng.chance(1, 6) {
        text.push(' ');
        text.push_str(behind);
    }
    text
}

/// At each place every row of up to two tokens.
pub fn short_rows() -> impl Iterator<Item = String> {
    PLACES.iter().flat_map(|place| {
        let one = GRAMMAR.iter().map(|token| token.to_string());
        let two = GRAMMAR.iter().flat_map(|a| GRAMMAR.iter().map(move |b| format!("{a} {b}")));
        let rows = [String::new()].into_iter().chain(one).chain(two);
        rows.map(|row| format!("{}{row} {}", place.0, place.1))
    })
}
