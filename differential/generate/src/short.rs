//! Every short text over an alphabet.

/// A character for each way in which lexer.rs may begin, go on with or end a token: among the
/// delimiters `;` stands for all that are alone, among letters those of `hex`, of keywords of
/// two letters and some others.
const NARROW: [char; 36] = [
    ';', ':', '=', '>', '<', '+', '-', '*', '/', '%', '!', '&', '|', '@', '"', '\\', ' ', '\n',
    '\r', '0', '1', '2', 'x', 'b', 'h', 'e', 'f', 'i', 'n', 'o', 'r', 's', 'g', '_', '#', 'é',
];

const NON_ASCII: [char; 8] =
    ['\u{80}', 'é', '\u{7ff}', '\u{800}', '\u{feff}', '\u{ffff}', '\u{10000}', '\u{10ffff}'];

/// A character for each way in which strings.rs may decode one, and one of each length in UTF-8.
const IN_STRINGS: [char; 8] = ['g', '4', 'x', 'n', '\\', 'é', '木', '𝄞'];

/// The edges of the byte ranges in RFC 3629's table, and an ASCII byte.
const EDGE_BYTES: [u8; 24] = [
    0x41, 0x7f, 0x80, 0x8f, 0x90, 0x9f, 0xa0, 0xbf, 0xc0, 0xc1, 0xc2, 0xdf, 0xe0, 0xe1, 0xec, 0xed,
    0xee, 0xef, 0xf0, 0xf1, 0xf3, 0xf4, 0xf5, 0xff,
];

/// All texts of up to two characters over ASCII and some others, of three over printable
/// ASCII, blanks and one other, of four over the narrow alphabet.
pub fn short_texts() -> impl Iterator<Item = Vec<u8>> {
    let ascii = (0..128).map(char::from).chain(NON_ASCII).collect::<Vec<_>>();
    let printable = (' '..='~').chain(['\t', '\n', '\r', 'é']).collect::<Vec<_>>();
    let up_to_two = (0..=2).flat_map(move |length| words(ascii.clone(), length));
    up_to_two
        .chain(words(printable, 3))
        .chain(words(NARROW.to_vec(), 4))
        .map(|characters| characters.into_iter().collect::<String>().into_bytes())
}

/// All texts of up to two bytes, and of three and four edge bytes.
pub fn short_byte_texts() -> impl Iterator<Item = Vec<u8>> {
    let all = (0..=255).collect::<Vec<u8>>();
    let up_to_two = (0..=2).flat_map(move |length| words(all.clone(), length));
    up_to_two.chain(words(EDGE_BYTES.to_vec(), 3)).chain(words(EDGE_BYTES.to_vec(), 4))
}

/// A constant for each `"` string of up to five characters and each `hex"` string of up to four.
pub fn short_strings() -> impl Iterator<Item = String> {
    let up_to = |longest| (0..=longest).flat_map(|length| words(IN_STRINGS.to_vec(), length));
    let text = |opening: &str, body: Vec<char>| {
        format!("const z = {opening}{}\";", body.into_iter().collect::<String>())
    };
    up_to(5).map(move |body| text("\"", body)).chain(up_to(4).map(move |body| text("hex\"", body)))
}

/// All rows of this length over an alphabet.
fn words<T: Copy>(alphabet: Vec<T>, length: u32) -> impl Iterator<Item = Vec<T>> {
    let base = alphabet.len();
    (0..base.pow(length)).map(move |number| {
        let digit = |place| alphabet[number / base.pow(place) % base];
        (0..length).rev().map(digit).collect()
    })
}
