//! Texts with many names. The library makes a table of names for texts of more than 256 tokens.

use crate::Rng;

/// From how many different names a text draws.
const POOLS: [usize; 4] = [1, 2, 60, 1_000_000];

/// An endless row of texts of up to 65,536 bytes: names and builtins' names in declarations, or one after the other.
pub struct NameTexts {
    rng: Rng,
}

impl NameTexts {
    pub fn new(seed: u64) -> Self {
        NameTexts { rng: Rng::new(seed) }
    }
}

impl Iterator for NameTexts {
    type Item = String;

    fn next(&mut self) -> Option<String> {
        let rng = &mut self.rng;
        let pool = POOLS[rng.below(4)];
        let length = match rng.below(8) {
            0..3 => return Some(row(rng, pool)),
            3..7 => 600 + rng.below(13_400),
            _ => 14_000 + rng.below(51_537),
        };
        let mut text = String::new();
        while text.len() < length {
            piece(rng, pool, &mut text);
        }
        text.truncate(length);
        Some(text)
    }
}

/// Names and blanks, some 256 tokens.
fn row(rng: &mut Rng, pool: usize) -> String {
    let tokens = 250 + rng.below(12);
    (0..tokens).map(|i| if i % 2 == 0 { name(rng, pool) } else { " ".to_string() }).collect()
}

fn piece(rng: &mut Rng, pool: usize, text: &mut String) {
    let [a, b, c] = [0, 1, 2].map(|_| name(rng, pool));
    text.push_str(&match rng.below(5) {
        0 => format!("const {a} = {b} + {c};\n"),
        1 => format!("init {{ {a} = @{b}({c}); }}\n"),
        2 => format!("use {a}::{{{b}, {c} as {a}}};\n"),
        3 => format!("{a}@{b} {c};"),
        _ => format!("{a} {b}\t"),
    });
}

/// A name by its number; a keyword may come out too.
fn name(rng: &mut Rng, pool: usize) -> String {
    let mut number = rng.below(pool);
    let mut name = String::new();
    loop {
        name.push(char::from(b'a' + (number % 26) as u8));
        number /= 26;
        if number == 0 {
            return name;
        }
    }
}
