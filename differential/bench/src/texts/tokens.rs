//! Texts of one sort of token, drawn from those that a script may have.

use super::filled;
use generate::{KEYWORDS, OPERATORS, Rng};

const NAMES: [&str; 40] = [
    "a", "d", "n", "x1", "id", "dbh", "age", "oak", "plot", "bark", "area", "stem", "row_2",
    "total", "basal", "crown", "pines", "radius", "volume", "stems_7", "spruce", "plot_12",
    "girth_cm", "is_dense", "not_cut", "stand_age", "plot_area", "basal_area", "crown_base",
    "tally_2019", "stem_volume", "bark_factor", "crown_diameter", "mean_diameter", "h", "h2",
    "hex", "height", "hex_area", "height_dm",
];

const NUMBERS: [&str; 28] = [
    "0", "7", "12", "42", "400", "630", "1990", "12732", "400000", "1273240", "31415926535",
    "1_000", "12_500", "1_000_000", "40_075_017", "2_147_483_648", "0x0", "0xf", "0x2a", "0xff_ff",
    "0x7f19", "0xdeadbeef", "0x0123_4567_89ab", "0b0", "0b1", "0b101", "0b1100_1010",
    "0b111100001010",
];

const SPECIES: [&str; 20] = [
    "oak",
    "ash",
    "yew",
    "elm",
    "larch",
    "beech",
    "birch",
    "aspen",
    "alder",
    "rowan",
    "spruce",
    "silver fir",
    "Scots pine",
    "Norway spruce",
    "sessile oak",
    "small-leaved lime",
    "wych elm",
    "hornbeam",
    "épicéa",
    "mélèze",
];

/// Some of these, a blank behind each.
fn drawn(size: usize, spellings: &[&str]) -> String {
    let mut rng = Rng::new(1);
    filled(size, |_| format!("{} ", rng.pick(spellings)))
}

pub fn operators(size: usize) -> String {
    drawn(size, OPERATORS)
}

pub fn names(size: usize) -> String {
    drawn(size, &NAMES)
}

pub fn numbers(size: usize) -> String {
    drawn(size, &NUMBERS)
}

pub fn keywords(size: usize) -> String {
    drawn(size, KEYWORDS)
}

/// Runs of 1 to 30, a semicolon behind each.
pub fn blanks(size: usize) -> String {
    let mut rng = Rng::new(1);
    filled(size, |_| {
        let length = 1 + rng.below(30);
        let run: String = (0..length).map(|_| rng.pick_char(&[' ', '\t', '\n'])).collect();
        run + ";"
    })
}

pub fn strings(size: usize) -> String {
    let mut rng = Rng::new(1);
    filled(size, |_| format!("\"{}\" ", rng.pick(&SPECIES)))
}
