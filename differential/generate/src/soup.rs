//! Rows of tokens, characters or bytes that follow no grammar.

use crate::rng::Rng;

/// Spellings of every kind of token, and pieces that make or break one: delimiters and
/// operators, keywords, names and numbers, strings, trivia, what starts no token.
pub const TOKENS: &[&str] = &[
    ";", ",", ":", ".", "$", "{", "}", "(", ")", "[", "]", "::", "=>", "=", "+", "+%", "-", "-%",
    "*", "*%", "/", "+/", "-/", "</", ">/", "%", "==", "!=", "<", ">", "<=", ">=", "!", "&&", "||",
    "&", "|", "^", "~", "<<", ">>", "if", "else", "fn", "eager", "let", "mut", "const", "init",
    "run", "struct", "tuple", "return", "comptime", "inline", "while", "true", "false", "and",
    "or", "pub", "use", "as", "match", "Self", "a", "_", "hex", "x1", "If", "iff", "selfs", "zZ_9",
    "@a", "@_", "@if", "@9", "0", "7", "12_3", "1__", "0x0", "0xfF_", "0xg", "0x", "0X1", "0x_1",
    "0b1", "0b01_", "0b2", "0b", "0b_1", "1a", "9_z", "0xFg", "0b1e", "\"\"", "\"a\"", "\"\\\"\"",
    "\"\\\\\"", "\"\\x41\"", "\"\\q\"", "\"é\"", "\"a\nb\"", "\"\\\n\"", "\"\r\"", "\"\\\"", "\"",
    "hex\"\"", "hex\"4f\"", "hex\"4\"", "hex\"zé\"", "hex\"\\\"", "hex\"\n\"", "hex\"", " ", "\n",
    "\t\r", "//\n", "// a\r", "//", "/**/", "/*/*/", "/* /* */ */", "/*", "*/", "@", "#", "'", "`",
    "é",
];

/// The spellings of kinds 0 to 40, delimiters and operators, and of kinds 41 to 64, with which `TOKENS` begins.
pub const OPERATORS: &[&str] = TOKENS.split_at(41).0;
pub const KEYWORDS: &[&str] = TOKENS.split_at(41).1.split_at(24).0;

pub fn tokens(rng: &mut Rng) -> String {
    let blanks = rng.chance(1, 2);
    let mut text = String::new();
    for _ in 0..rng.below(40) {
        text.push_str(rng.pick(TOKENS));
        if blanks && rng.chance(3, 4) {
            text.push(' ');
        }
    }
    text
}

pub fn characters(rng: &mut Rng) -> String {
    const RARE: [char; 8] = ['\0', '\x0b', '\x0c', '\x7f', '\u{80}', '\u{a0}', 'é', '\u{feff}'];
    let character = |rng: &mut Rng| match rng.below(12) {
        0 => rng.pick_char(&RARE),
        1 | 2 => rng.pick_char(&['\n', '\r', '\t', ' ']),
        3..6 => rng.pick_char(&['/', '*', '"', '\\', '@', '0', 'x', 'b', 'h', 'e']),
        _ => char::from(b' ' + rng.below(95) as u8),
    };
    (0..rng.below(60)).map(|_| character(rng)).collect()
}

/// Tokens with characters of every UTF-8 length among them.
pub fn non_ascii(rng: &mut Rng) -> String {
    let mut text = String::new();
    for _ in 0..rng.below(30) {
        if rng.chance(1, 2) {
            text.push(any_character(rng));
        } else {
            text.push_str(rng.pick(TOKENS));
        }
    }
    text
}

fn any_character(rng: &mut Rng) -> char {
    const EDGES: [char; 12] = [
        '\u{7f}', '\u{80}', '\u{7ff}', '\u{800}', '\u{d7ff}', '\u{e000}', '\u{fffd}', '\u{feff}',
        '\u{ffff}', '\u{10000}', '\u{10ffff}', '\u{2028}',
    ];
    if rng.chance(1, 2) {
        return rng.pick_char(&EDGES);
    }
    char::from_u32(rng.below(0x11_0000) as u32).unwrap_or('é')
}

pub fn bytes(rng: &mut Rng) -> Vec<u8> {
    (0..rng.below(40)).map(|_| rng.next_u64() as u8).collect()
}
