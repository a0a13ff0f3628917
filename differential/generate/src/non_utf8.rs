//! Texts that aren't UTF-8.

use crate::rng::Rng;

/// Each is no UTF-8 by itself (RFC 3629), or ends too early.
const BAD_SEQUENCES: [&[u8]; 22] = [
    b"\x80",
    b"\xbf",
    b"\xc0\x80",
    b"\xc1\xbf",
    b"\xc2",
    b"\xc2A",
    b"\xdf\xc0",
    b"\xe0\x9f\xbf",
    b"\xe0\xa0",
    b"\xe1\x80",
    b"\xe1\x80A",
    b"\xed\xa0\x80",
    b"\xed\xbf\xbf",
    b"\xef\xbf",
    b"\xf0\x8f\xbf\xbf",
    b"\xf0\x90\x80",
    b"\xf0\x90\x80A",
    b"\xf4\x90\x80\x80",
    b"\xf5\x80\x80\x80",
    b"\xf8\x88\x80\x80\x80",
    b"\xfe",
    b"\xff",
];

/// Puts a bad sequence somewhere, cuts inside a character, or changes a byte.
pub fn spoil(rng: &mut Rng, mut text: Vec<u8>) -> Vec<u8> {
    let place = rng.below(text.len() + 1);
    match rng.below(4) {
        0 => text.extend(rng.pick(&BAD_SEQUENCES)),
        1 if place < text.len() => text[place] = rng.next_u64() as u8,
        2 => {
            text.truncate(place);
            text.extend("→".bytes().take(1 + rng.below(2)));
        }
        _ => drop(text.splice(place..place, rng.pick(&BAD_SEQUENCES).iter().copied())),
    }
    text
}
