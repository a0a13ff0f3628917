//! Tokens that are long, and comments that nest deeply.

use crate::rng::Rng;

pub fn long_token(rng: &mut Rng) -> String {
    let length = 1 + rng.below(3000);
    let (opener, unit, closer) = shape(rng);
    let mut text = format!("a {opener}{}{closer}", unit.repeat(length / unit.len() + 1));
    if rng.chance(1, 2) {
        text.push_str(" b");
    }
    text
}

/// What stands before, in and after the stretch.
fn shape(rng: &mut Rng) -> (&'static str, &'static str, &'static str) {
    const SHAPES: [(&str, &str, &str); 24] = [
        ("//", "a note ", "\n"),
        ("//", "é\r", ""),
        ("/*", "*", "*/"),
        ("/*", "/ *", "*/"),
        ("/*", "/*", ""),
        ("/*", "/**/", "*/"),
        ("/*", "木\n", "*/"),
        ("/*", "*/ /*", "*/"),
        ("\"", "text", "\""),
        ("\"", "\\\"", "\""),
        ("\"", "\\\\", "\""),
        ("\"", "é\\x41", "\""),
        ("\"", "line\n", "\""),
        ("\"", "open", ""),
        ("hex\"", "4f", "\""),
        ("hex\"", "\\", "\""),
        ("hex\"", "00\r", ""),
        ("", "0123456789_", ""),
        ("0x", "fF0_", ""),
        ("0b", "01_", "2"),
        ("", "name_9", ""),
        ("@", "builtin_", ""),
        ("", " \t\r\n", ""),
        ("", "#", ""),
    ];
    SHAPES[rng.below(SHAPES.len())]
}
