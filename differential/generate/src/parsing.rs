//! Texts for the comparison of parsing. All of them are UTF-8.

use crate::{
    literals, mutate, nests,
    rng::Rng,
    rows,
    script::{damaged_script, script},
    soup, stretch,
};

/// An endless row of texts of all sorts, most of them below two thousand bytes.
pub struct ParseTexts {
    rng: Rng,
}

impl ParseTexts {
    pub fn new(seed: u64) -> Self {
        ParseTexts { rng: Rng::new(seed) }
    }
}

impl Iterator for ParseTexts {
    type Item = String;

    fn next(&mut self) -> Option<String> {
        let rng = &mut self.rng;
        Some(match rng.below(1000) {
            0..150 => script(rng),
            150..420 => damaged_script(rng),
            420..500 => {
                let script = script(rng);
                mutate::characters(rng, &script)
            }
            500..750 => rows::row(rng),
            750..850 => literals::literals(rng),
            850..890 => nests::nest(rng),
            890..930 => soup::tokens(rng),
            930..950 => soup::characters(rng),
            950..980 => soup::non_ascii(rng),
            980..990 => stretch::long_token(rng),
            _ => format!("const b = {}", stretch::long_token(rng).replacen("a ", "", 1)),
        })
    }
}
