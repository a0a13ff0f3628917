//! Whether a text is UTF-8 (RFC 3629), and in which of three ways it isn't (W1 of document 01), by
//! the standard library's account.

pub const NO_START: u32 = 1;
pub const NOT_ALLOWED: u32 = 9;
pub const CUT: u32 = 10;

/// The smallest texts that W1 is held to, with the refusal's number.
pub const SMALLEST: [(u32, &[u8]); 10] = [
    (NO_START, b"\x80"),
    (NO_START, b"\xc0"),
    (NO_START, b"\xf5"),
    (NOT_ALLOWED, b"\xe0\x80"),
    (NOT_ALLOWED, b"\xed\xa0"),
    (NOT_ALLOWED, b"\xf4\x90"),
    (NOT_ALLOWED, b"\xe2\x82\x41"),
    (CUT, b"\xc2"),
    (CUT, b"\xe2\x82"),
    (CUT, b"\xf0\x9f\x92"),
];

/// The text, or the refusal's number and the offset where the first bad sequence starts.
pub fn checked(text: &[u8]) -> Result<&str, (u32, usize)> {
    str::from_utf8(text).map_err(|error| {
        let place = error.valid_up_to();
        let number = match (error.error_len(), text[place]) {
            // "the end of the input was reached unexpectedly" (`Utf8Error::error_len`)
            (None, _) => CUT,
            // What no row of the RFC's table has for a first byte.
            (Some(_), 0x80..=0xc1 | 0xf5..) => NO_START,
            (Some(_), _) => NOT_ALLOWED,
        };
        (number, place)
    })
}

#[cfg(test)]
mod tests {
    use super::*;

    #[test]
    fn the_smallest_texts() {
        for (number, text) in SMALLEST {
            assert_eq!(checked(text), Err((number, 0)), "{text:x?}");
        }
    }

    #[test]
    fn good_texts() {
        for text in ["", "a", "é", "木", "\u{10ffff}"] {
            assert_eq!(checked(text.as_bytes()), Ok(text));
        }
    }
}
