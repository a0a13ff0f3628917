//! Rows of lexing: `plank_lex`, which has tables, beside `plank_lex_branching`.

use crate::{
    library::Tokens,
    texts::{LEX_KINDS, print_rows},
    timing::{SAMPLES, in_turn, middle, ratios, sampler},
};
use plank::raw;
use std::hint::black_box;

pub fn print() {
    println!(
        "lexing, ns a byte: the middle of {SAMPLES} samples; ratio: the middle, lower and upper quarter, above 1 where the tables are faster"
    );
    println!("{:<23}{:>7}{:>10}{:>11}  branching / tables", "kind", "bytes", "tables", "branching");
    print_rows(&LEX_KINDS, row);
}

fn row(text: &str) -> String {
    let bytes = text.as_bytes();
    let mut slices = [Tokens::for_text(bytes), Tokens::for_text(bytes)];
    let [first, second] = &mut slices;
    let tables = sampler(|| {
        black_box(first.lex(bytes, raw::lex));
    });
    let branching = sampler(|| {
        black_box(second.lex(bytes, raw::lex_branching));
    });
    let [tables, branching] = in_turn([tables, branching], bytes.len());
    format!(
        "{:>10.2}{:>11.2}  {}",
        middle(&tables),
        middle(&branching),
        ratios(&branching, &tables)
    )
}
