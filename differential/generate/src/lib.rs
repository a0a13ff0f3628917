//! Texts for the comparison. The same seed gives the same texts.

mod literals;
mod mutate;
mod names;
mod nests;
mod non_utf8;
mod parsing;
mod rng;
mod rows;
mod script;
mod short;
mod sized;
mod soup;
mod stretch;

pub use names::NameTexts;
pub use nests::nests;
pub use parsing::ParseTexts;
pub use rng::Rng;
pub use rows::short_rows;
pub use script::{damaged_script, script};
pub use short::{short_byte_texts, short_strings, short_texts};
pub use sized::{behind_mark, long_texts, texts_around_the_limit};
pub use soup::{KEYWORDS, OPERATORS, TOKENS};

/// An endless row of texts of all sorts, most of them below two thousand bytes.
pub struct Texts {
    rng: Rng,
}

impl Texts {
    pub fn new(seed: u64) -> Self {
        Texts { rng: Rng::new(seed) }
    }
}

impl Iterator for Texts {
    type Item = Vec<u8>;

    fn next(&mut self) -> Option<Vec<u8>> {
        let rng = &mut self.rng;
        Some(match rng.below(1000) {
            0..250 => script(rng).into_bytes(),
            250..500 => mutated_script(rng).into_bytes(),
            500..700 => soup::tokens(rng).into_bytes(),
            700..800 => soup::characters(rng).into_bytes(),
            800..880 => soup::non_ascii(rng).into_bytes(),
            880..930 => stretch::long_token(rng).into_bytes(),
            930..945 => soup::bytes(rng),
            _ => non_utf8_script(rng),
        })
    }
}

fn mutated_script(rng: &mut Rng) -> String {
    let script = script(rng);
    mutate::characters(rng, &script)
}

fn non_utf8_script(rng: &mut Rng) -> Vec<u8> {
    let text = if rng.chance(1, 2) { script(rng) } else { soup::non_ascii(rng) };
    non_utf8::spoil(rng, text.into_bytes())
}
