//! Writes a fixed sample of the reference's tokens, and of texts that are refused whatever is
//! lent, for a replay by another program.
//!
//! All numbers are 4 bytes, least first: the number of records; then for each the length of
//! the text, its bytes padded with 0 to a multiple of 4, the number of tokens, their words. A
//! text that is refused has 0 for the number of tokens, and behind it the refusal's number and
//! place.

use crate::{
    answer::{MOST_BYTES, Reference},
    fuzzed, mark,
    utf8::SMALLEST,
};
use generate::{TOKENS, Texts};
use std::{collections::HashSet, fs, path::Path, process::ExitCode};

/// So many besides those that fuzzing found.
const RECORDS: usize = 400;
const LONGEST_TEXT: usize = 1500;
const SEED: u64 = 1;

/// Corners that document 01 names, and ends of the text inside a token.
const CORNERS: &[&str] = &[
    "", "==>", "=>=", "<<=", "<</", "+%/", ":::", "&&&", "|||", "!==", ">>>/", "ifelse", "if_",
    "if else", "iF", "Self self", "const a = 1;", "//", "//*\n*/", "// a\rb\nc", "// é\n", "/**/",
    "/*/*/", "/***/", "/*/", "/**", "/* /* */", "/*/**/*/a", "/* // */ b", "/*é*/木", "0xg",
    "0x1g", "0b12", "00_1_", "0x_", "1_000a", "0b1_0_", "1é", "1.5", "@", "@@a", "@1", "@é", "@if",
    "\"", "\"\\", "\"\\\"", "\"\\é\"", "\"\\\r\n\"", "\"a\r\"b", "\"a\n", "\"é木\"", "hex\"\\\"",
    "hex\"a\nb\"", "hex\"\n", "hex \"\"", "hexx\"\"", "ahex\"\"", "\"\" hex\"4\"", "é木\u{10ffff}",
    "\u{feff}a", "\u{a0}\u{2028}", "\0\x0b\x0c\x7f", " \t\r\n",
];

/// Good text with a character of each length, for bad sequences to stand behind.
const GOOD: &str = "const é = \"木\"; // 🌲\n";

pub fn write(file: &Path) -> ExitCode {
    let texts: Vec<Vec<u8>> = sample().into_iter().map(Vec::from).chain(refused()).collect();
    save(file, texts.len(), &encode(&texts))
}

pub fn save(file: &Path, records: usize, bytes: &[u8]) -> ExitCode {
    match fs::write(file, bytes) {
        Ok(()) => {
            println!("{records} records, {} bytes", bytes.len());
            ExitCode::SUCCESS
        }
        Err(error) => {
            eprintln!("{}: {error}", file.display());
            ExitCode::FAILURE
        }
    }
}

/// The corners, each spelling of a token alone, and generated texts that are not too long,
/// each text once; then those that fuzzing found, and those with a byte order mark.
fn sample() -> Vec<String> {
    let generated = Texts::new(SEED)
        .filter(|text| text.len() <= LONGEST_TEXT)
        .filter_map(|text| String::from_utf8(text).ok());
    let chosen = CORNERS.iter().chain(TOKENS).map(|text| text.to_string());
    let mut seen = HashSet::new();
    let texts = chosen.chain(generated).filter(|text| seen.insert(text.clone())).take(RECORDS);
    let later = fuzzed::LEXED.iter().chain(mark::LEXED).map(|text| text.to_string());
    texts.chain(later).collect()
}

/// The smallest texts that aren't UTF-8 in each way, alone and behind good text, and one that is
/// cut and one byte too long.
fn refused() -> Vec<Vec<u8>> {
    let smallest = |before: &str| SMALLEST.map(|(_, text)| [before.as_bytes(), text].concat());
    let cut = "→".bytes().take(2);
    let too_long = " ".bytes().cycle().take(MOST_BYTES - 1).chain(cut).collect();
    [smallest("").to_vec(), smallest(GOOD).to_vec(), vec![too_long]].concat()
}

fn encode(texts: &[Vec<u8>]) -> Vec<u8> {
    let mut bytes = number(texts.len()).to_vec();
    for text in texts {
        bytes.extend(number(text.len()));
        bytes.extend(text);
        bytes.resize(bytes.len().next_multiple_of(4), 0);
        match Reference::of(text, None) {
            Reference::Tokens(tokens) => {
                bytes.extend(number(tokens.len()));
                bytes.extend(tokens.iter().flat_map(|word| word.to_le_bytes()));
            }
            Reference::Refused { number: refusal, place } => {
                bytes.extend([0, refusal as usize, place].into_iter().flat_map(number));
            }
        }
    }
    bytes
}

pub fn number(value: usize) -> [u8; 4] {
    (value as u32).to_le_bytes()
}

#[cfg(test)]
mod tests {
    use super::*;
    use crate::answer::TOO_LONG;

    /// More the replaying program doesn't take.
    const LONGEST_DATA: usize = 196_608;

    #[test]
    fn the_sample_has_every_kind_of_token() {
        let kinds: HashSet<u32> =
            sample().iter().flat_map(|text| oracle::lex(text)).map(|word| word >> 25).collect();
        assert_eq!(kinds, (0..=81).collect());
    }

    #[test]
    fn the_sample_is_small() {
        assert_eq!(sample().len(), RECORDS + fuzzed::LEXED.len() + mark::LEXED.len());
        let texts: Vec<Vec<u8>> = sample().into_iter().map(Vec::from).chain(refused()).collect();
        assert!(encode(&texts).len() <= LONGEST_DATA);
    }

    #[test]
    fn a_record() {
        let expected = [1, 5, 0x6c65_7322, 0x22, 2, 70 << 25 | 5, 81 << 25 | 5];
        let expected: Vec<u8> = expected.iter().flat_map(|word: &u32| word.to_le_bytes()).collect();
        assert_eq!(encode(&[b"\"sel\"".to_vec()]), expected);
    }

    #[test]
    fn the_record_of_a_refusal() {
        let expected = [1, 3, 0x0082_e241, 0, 10, 1];
        let expected: Vec<u8> = expected.iter().flat_map(|word: &u32| word.to_le_bytes()).collect();
        assert_eq!(encode(&[b"A\xe2\x82".to_vec()]), expected);
    }

    #[test]
    fn each_text_is_refused_as_it_should_be() {
        let alone = SMALLEST.map(|(number, _)| (number, 0));
        let behind = SMALLEST.map(|(number, _)| (number, GOOD.len()));
        let expected = alone.into_iter().chain(behind).chain([(TOO_LONG, MOST_BYTES)]);
        for (text, expected) in refused().iter().zip(expected) {
            match Reference::of(text, None) {
                Reference::Refused { number, place } => assert_eq!((number, place), expected),
                Reference::Tokens(_) => panic!("{text:x?}"),
            }
        }
        assert_eq!(refused().len(), 2 * SMALLEST.len() + 1);
    }
}
