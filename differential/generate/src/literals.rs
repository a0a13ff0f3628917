//! Strings and numbers, good and bad, where an expression stands.

use crate::rng::Rng;

const PIECES: [&str; 35] = [
    "a", "Z", " ", "~", "\\n", "\\r", "\\t", "\\0", "\\\\", "\\\"", "\\x41", "\\xfF", "\\x00",
    "\\x", "\\x4", "\\xg", "\\xg1", "\\x1g", "\\xé1", "\\x1é", "\\q", "\\é", "\\木", "\\'", "\\1",
    "\\x1\\\\", "\\X41", "é", "é木", "\u{10ffff}", "\u{80}a", "\\\n", "x41", "//", "\\ ",
];

const HEX_PIECES: [&str; 14] =
    ["4f", "00", "Aa", "4", "g", "é", "木", "\\", " ", "x", "_", "ff", "\u{10ffff}", "\\x41"];

const NUMBERS: [&str; 16] = [
    "0",
    "000",
    "0x0",
    "0b0",
    "0x0000_0000_0000",
    "4294967295",
    "4294967296",
    "4294967297",
    "18446744073709551615",
    "18446744073709551616",
    "340282366920938463463374607431768211456",
    "0xffff_ffff",
    "0x1_0000_0000",
    "0x1_0000_0000_0000_0000",
    "0b1_0000_0000_0000_0000_0000_0000_0000_0000",
    "1_",
];

const BETWEEN: [&str; 7] = ["", " ", "\n", "/**/", " // a\n", "#", " + "];

pub fn literals(rng: &mut Rng) -> String {
    let mut text =
        rng.pick(&["const a = ", "init { f(", "run { a; ", "const a: b = c { d: "]).to_string();
    for _ in 0..1 + rng.below(4) {
        text.push_str(&literal(rng));
        text.push_str(rng.pick(&BETWEEN));
    }
    text.push_str(rng.pick(&[";", "); }", "}", "};", ""]));
    text
}

fn literal(rng: &mut Rng) -> String {
    match rng.below(8) {
        0 => rng.pick(&NUMBERS).to_string(),
        1 => number(rng),
        2 | 3 => string(rng, "hex\"", &HEX_PIECES),
        _ => string(rng, "\"", &PIECES),
    }
}

/// Now and then with a line end, or not closed.
fn string(rng: &mut Rng, opener: &str, pieces: &[&'static str]) -> String {
    let mut text = opener.to_string();
    for _ in 0..rng.below(9) {
        text.push_str(rng.pick(pieces));
    }
    match rng.below(30) {
        0 => {}
        1 => text.push_str("\n\""),
        _ => text.push('"'),
    }
    text
}

fn number(rng: &mut Rng) -> String {
    let (prefix, digits) = match rng.below(3) {
        0 => ("1", "0123456789_"),
        1 => ("0x0", "0123456789abcdefABCDEF_"),
        _ => ("0b0", "01_"),
    };
    let digits: Vec<char> = digits.chars().collect();
    let count = rng.below(150);
    let digits: String = (0..count).map(|_| rng.pick_char(&digits)).collect();
    format!("{prefix}{digits}")
}
