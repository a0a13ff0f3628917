//! Strings with characters that are not ASCII. The reference reports them; by document 01, W7, they
//! stand in the value as their UTF-8 bytes. So the reference is given the text with as many letters
//! in their place as they have bytes, and the values of its strings are decoded anew from the text.

use crate::mark;
use oracle::{End, Run, Step};
use std::{iter, ops::RangeInclusive, str::Chars};

const STRING: u32 = 70;
const HEX_STRING: u32 = 71;
/// Strings, blanks, comments and errors, which are reported and passed: what may stand in a literal
/// and behind it.
const PASSED: RangeInclusive<u32> = 70..=80;
const END_BITS: u32 = 25;
const VALUE_BITS: u32 = 30;
const STRING_VALUE: u32 = 2;

/// For the record of trees: characters of two, three and four bytes; beside the same bytes by escapes
/// and digits, free of reports; and where a backslash, `\x` and a `hex"` string take them.
pub const PARSED: &[&str] = &[
    "const a = \"épinette\";",
    "const a = \"é木𝄞\" hex\"c3a9\" \"\\xc3\\xa9\\\\é\";",
    "\u{feff}const a = \"é\\é木\\xé𝄞é\" hex\"éé\" \"\\x4é\\x𝄞\";",
];

/// What is done with a text.
pub fn run(text: &str) -> Run {
    run_with(text, own_bytes)
}

fn own_bytes(character: char) -> Vec<u8> {
    character.to_string().into_bytes()
}

/// The same, where a character that stands for itself in a `"` string has other bytes.
pub fn run_with(text: &str, bytes_of: fn(char) -> Vec<u8>) -> Run {
    let tokens = spellings(text);
    let plain: Vec<(u32, String)> =
        tokens.iter().map(|token| (token.0, in_letters(*token))).collect();
    let mut run =
        mark::run(&plain.iter().map(|(_, spelling)| spelling.as_str()).collect::<String>());
    restore(&mut run, &tokens, &plain, bytes_of);
    run
}

/// The kinds and spellings of the tokens, Eof left out.
fn spellings(text: &str) -> Vec<(u32, &str)> {
    let mut start = 0;
    let spelling = |word: u32| {
        let end = (word & ((1 << END_BITS) - 1)) as usize;
        let part = &text[start..end];
        start = end;
        (word >> END_BITS, part)
    };
    let words = mark::lex(text);
    words[..words.len() - 1].iter().copied().map(spelling).collect()
}

/// "In a `"` string, non-ASCII characters now stand in the value as their UTF-8 bytes, without a
/// report; after a backslash they remain an unknown escape, and where `\x` takes them it remains a
/// bad `\x`."
enum Part {
    Character(char),
    /// A backslash and what it takes, and the byte that they stand for.
    Escape(String, Option<u8>),
}

fn part(characters: &mut Chars) -> Option<Part> {
    let first = characters.next()?;
    if first != '\\' {
        return Some(Part::Character(first));
    }
    let second = characters.next();
    let digits: String = match second {
        Some('x') => characters.by_ref().take(2).collect(),
        _ => String::new(),
    };
    let byte = match second {
        Some('n') => Some(b'\n'),
        Some('r') => Some(b'\r'),
        Some('t') => Some(b'\t'),
        Some('0') => Some(0),
        Some('\\') => Some(b'\\'),
        Some('"') => Some(b'"'),
        Some('x') if digits.len() == 2 && digits.bytes().all(|byte| byte.is_ascii_hexdigit()) => {
            u8::from_str_radix(&digits, 16).ok()
        }
        _ => None,
    };
    Some(Part::Escape(iter::once(first).chain(second).chain(digits.chars()).collect(), byte))
}

fn parts(spelling: &str) -> impl Iterator<Item = Part> {
    let mut characters = spelling[1..spelling.len() - 1].chars();
    iter::from_fn(move || part(&mut characters))
}

/// The spelling of a token, in a `"` string with letters for the bytes of what is not ASCII and stands
/// for itself.
fn in_letters((kind, spelling): (u32, &str)) -> String {
    if kind != STRING {
        return spelling.to_string();
    }
    let body = parts(spelling).map(|part| match part {
        Part::Character(c) if !c.is_ascii() => "a".repeat(c.len_utf8()),
        Part::Character(c) => c.to_string(),
        Part::Escape(source, _) => source,
    });
    format!("\"{}\"", body.collect::<String>())
}

/// The bytes of a token.
fn decoded(kind: u32, spelling: &str, bytes_of: fn(char) -> Vec<u8>) -> Vec<u8> {
    match kind {
        STRING => parts(spelling)
            .flat_map(|part| match part {
                Part::Character(c) => bytes_of(c),
                Part::Escape(_, byte) => byte.into_iter().collect(),
            })
            .collect(),
        HEX_STRING => {
            let digits = spelling[4..spelling.len() - 1].chars();
            let digits: Vec<u32> = digits.map(|c| c.to_digit(16).unwrap_or(0)).collect();
            digits.chunks_exact(2).map(|pair| (16 * pair[0] + pair[1]) as u8).collect()
        }
        _ => Vec::new(),
    }
}

/// The value of a literal of these tokens.
fn value<'a>(
    tokens: impl Iterator<Item = (u32, &'a str)>,
    bytes_of: fn(char) -> Vec<u8>,
) -> Vec<u32> {
    let bytes = tokens.flat_map(|(kind, spelling)| decoded(kind, spelling, bytes_of));
    value_words(&bytes.collect::<Vec<u8>>())
}

/// Puts what the text's own tokens decode to in the place of each string value. A value is made where
/// the cursor is past the last token of its literal and what is passed behind it. Its first token is
/// the nearest from which on the letters decode to the value.
fn restore(
    run: &mut Run,
    tokens: &[(u32, &str)],
    plain: &[(u32, String)],
    bytes_of: fn(char) -> Vec<u8>,
) {
    let mut values = Vec::new();
    let mut rest = &run.values[..];
    for taken in &run.steps {
        let Step::Value { words } = taken.step else { continue };
        let Some((made, behind)) = rest.split_at_checked(words) else { break };
        rest = behind;
        if made[0] >> VALUE_BITS != STRING_VALUE {
            values.extend(made);
            continue;
        }
        let end = tokens.len().min(taken.cursor as usize);
        let is_passed = |start: &usize| PASSED.contains(&tokens[*start].0);
        let is_first = |start: &usize| {
            let letters = plain[*start..end].iter().map(|(kind, part)| (*kind, part.as_str()));
            value(letters, own_bytes) == made
        };
        let start = (0..end).rev().take_while(is_passed).find(is_first);
        let start = start.expect("the letters decode to the value");
        values.extend(value(tokens[start..end].iter().copied(), bytes_of));
    }
    values.extend(rest);
    run.values.clone_from(&values);
    if let End::Read(words) = &mut run.end {
        words.values = values;
    }
}

/// "Bytes four to a word, first lowest, padded with 0", behind their number.
fn value_words(bytes: &[u8]) -> Vec<u32> {
    let word = |four: &[u8]| four.iter().rev().fold(0, |word, byte| word << 8 | u32::from(*byte));
    let head = STRING_VALUE << VALUE_BITS | bytes.len() as u32;
    iter::once(head).chain(bytes.chunks(4).map(word)).collect()
}

#[cfg(test)]
mod tests {
    use super::{run, value_words};
    use generate::ParseTexts;

    #[test]
    fn of_ascii_strings_the_reference_says_the_same() {
        for text in ParseTexts::new(5).filter(|text| text.is_ascii()).take(3000) {
            assert_eq!(run(&text), oracle::run(&text), "{text:?}");
        }
    }

    #[test]
    fn of_what_is_taken_by_a_backslash_or_is_a_digit_too() {
        let text = "const a = \"\\é\\x4é\\x𝄞木b\" hex\"é木4\" \"\\xé\";";
        assert_eq!(run(text), oracle::run(text));
    }

    #[test]
    fn all_else_is_its_bytes() {
        let run = run("const a = \"é\" /* 木 */ \"\\x41木\\\\𝄞\";");
        assert_eq!(run.values, value_words("éA木\\𝄞".as_bytes()));
        assert_eq!(run.reports, []);
    }
}
