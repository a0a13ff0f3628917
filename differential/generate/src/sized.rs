//! Texts around the limit of 65,536 bytes.

const LIMIT: usize = 65_536;

const LENGTHS: [usize; 5] = [LIMIT - 1, LIMIT, LIMIT + 1, LIMIT + 2, 2 * LIMIT];

const FILLINGS: [&str; 17] = [
    " ",
    ";",
    "a",
    "1",
    "#",
    "/*",
    "/*/",
    "*/",
    "\"",
    "\"\\",
    "//",
    "// \n",
    "const a = 1; ",
    "if a { hex\"41\" } ",
    "<=> ",
    "é",
    "木",
];

/// How many comments are opened: as many as may be and one less, and as many as can just be closed,
/// one more and one less.
const OPENED: [usize; 5] = [LIMIT / 2, LIMIT / 2 - 1, LIMIT / 4 + 1, LIMIT / 4, LIMIT / 4 - 1];

/// Each filling over and over, also where that ends inside a character, and nested comments; then
/// the same with a byte that starts no character in front, with one at the end, and with a byte order
/// mark for the first three bytes.
pub fn texts_around_the_limit() -> impl Iterator<Item = Vec<u8>> {
    let filled = LENGTHS.iter().flat_map(|length| FILLINGS.map(|filling| filled(filling, *length)));
    filled.chain(OPENED.map(nested_comments)).flat_map(|text| {
        let mut bad_first = text.clone();
        bad_first[0] = 0xff;
        let mut bad_last = text.clone();
        bad_last[text.len() - 1] = 0xff;
        let marked = behind_mark(text[3..].to_vec());
        [text, bad_first, bad_last, marked]
    })
}

/// What stands before, what fills, and what stands behind.
const LONG: [(&str, &str, &str); 22] = [
    ("", "const a = 1; ", ""),
    ("init { ", "a; ", "}"),
    ("init { ", "a ", "}"),
    ("init { ", "b = 1; ", "}"),
    ("init { ", "{} ", "}"),
    ("const a = ", "1", ";"),
    ("const a = 0x", "f", ";"),
    ("const a = \"", "abcd", "\";"),
    ("const a = \"", "\\q", "\";"),
    ("const a = \"", "é", "\";"),
    ("const a = hex\"", "4f", "\";"),
    ("const a = ", "\"\" ", ";"),
    ("const a = b", " + b", ";"),
    ("const a = b", ".c", ";"),
    ("const a = b", "(c)", ";"),
    ("const a = f(", "a,", ");"),
    ("const a = struct {", "a: b,", "};"),
    ("const a = match b {", "1=>2,", "};"),
    ("use a::{", "b,", "};"),
    ("const a = ", "#", ";"),
    // The most tokens; the last before Eof is a name, seen before or not.
    ("", ";a", ""),
    ("", ";a", ";b"),
];

/// Texts as long as may be, inside one declaration.
pub fn long_texts() -> impl Iterator<Item = String> {
    LONG.iter().map(|(before, filling, behind)| {
        let room = LIMIT - before.len() - behind.len();
        format!("{before}{}{behind}", filling.repeat(room / filling.len()))
    })
}

fn filled(filling: &str, length: usize) -> Vec<u8> {
    filling.bytes().cycle().take(length).collect()
}

/// A text with a byte order mark in front.
pub fn behind_mark(text: Vec<u8>) -> Vec<u8> {
    ["\u{feff}".as_bytes(), &text].concat()
}

/// So many comments opened, and closed as often as fits.
fn nested_comments(opened: usize) -> Vec<u8> {
    let closed = opened.min(LIMIT / 2 - opened);
    format!("{}{}", "/*".repeat(opened), "*/".repeat(closed)).into_bytes()
}
