//! A fixed text, or the small part of regular expressions that lexer.rs uses, as a row of pieces.

use crate::item::Rule;

pub struct Pattern {
    pub is_text: bool,
    pub pieces: Vec<Piece>,
}

/// One byte of these, or any number of them; only the last piece of a row repeats.
#[derive(Clone)]
pub struct Piece {
    pub class: Vec<u8>,
    pub repeats: bool,
}

pub fn pieces(rule: &Rule) -> Pattern {
    let spelled = value(&rule.pattern);
    let is_text = rule.word == "token";
    let once = |byte: u8| Piece { class: vec![byte], repeats: false };
    let pieces = if is_text { spelled.bytes().map(once).collect() } else { regex(&spelled) };
    let (_, front) = pieces.split_last().expect("a pattern has a piece");
    assert!(front.iter().all(|piece| !piece.repeats), "only the last may repeat: {spelled:?}");
    Pattern { is_text, pieces }
}

/// The value of a string literal.
fn value(literal: &str) -> String {
    if let Some(raw) = literal.strip_prefix('r') {
        return raw.trim_matches('"').to_string();
    }
    let inner = literal.strip_prefix('"').and_then(|rest| rest.strip_suffix('"'));
    let mut characters = inner.expect("a string literal").chars();
    let mut value = String::new();
    while let Some(character) = characters.next() {
        value.push(match character {
            '\\' => match characters.next() {
                Some('n') => '\n',
                Some('r') => '\r',
                Some('t') => '\t',
                Some(itself @ ('\\' | '"')) => itself,
                other => panic!("no such escape: {other:?}"),
            },
            itself => itself,
        });
    }
    value
}

fn regex(source: &str) -> Vec<Piece> {
    let mut bytes = source.bytes().peekable();
    let mut pieces = Vec::new();
    while let Some(byte) = bytes.next() {
        let class = match byte {
            b'[' => class(bytes.by_ref().take_while(|byte| *byte != b']').collect()),
            b'@' => vec![byte],
            _ if byte.is_ascii_alphanumeric() => vec![byte],
            _ => panic!("no such piece: {byte}"),
        };
        if bytes.next_if_eq(&b'*').is_some() {
            pieces.push(Piece { class, repeats: true });
        } else if bytes.next_if_eq(&b'+').is_some() {
            pieces.push(Piece { class: class.clone(), repeats: false });
            pieces.push(Piece { class, repeats: true });
        } else {
            pieces.push(Piece { class, repeats: false });
        }
    }
    pieces
}

/// The bytes of `a-zA-Z_`.
fn class(spelled: Vec<u8>) -> Vec<u8> {
    let mut rest = spelled.as_slice();
    let mut class = Vec::new();
    while let [low, behind @ ..] = rest {
        let (high, behind) = match behind {
            [b'-', high, behind @ ..] => (high, behind),
            _ => (low, behind),
        };
        class.extend(*low..=*high);
        rest = behind;
    }
    class
}
