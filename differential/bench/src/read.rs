//! Rows of reading: `plank_read` beside the reference's `Lexed::lex` and `parse`, over slow stand-ins
//! and over fast ones.

use crate::{
    library::Slices,
    texts::{READ_KINDS, WORST_KINDS, print_rows},
    timing::{SAMPLES, in_turn, middle, ratios, sampler},
};
use std::hint::black_box;

pub fn print() {
    println!(
        "reading, ns a byte: the middle of {SAMPLES} samples; ratios: the middle, lower and upper quarter"
    );
    println!(
        "{:<23}{:>7}{:>10}{:>10}{:>10}  {:<21}  read / fast",
        "kind", "bytes", "read", "slow", "fast", "read / slow"
    );
    print_rows(&READ_KINDS, row);
    println!("slow by what is known of the library, and by search");
    print_rows(&WORST_KINDS, row);
}

fn row(text: &str) -> String {
    let mut slices = Slices::for_text(text.as_bytes());
    let read = sampler(|| {
        black_box(slices.read(text.as_bytes()));
    });
    let slow = sampler(|| over_slow_stand_ins(text));
    let fast = sampler(|| over_fast_stand_ins(text));
    let [read, slow, fast] = in_turn([read, slow, fast], text.len());
    format!(
        "{:>10.1}{:>10.1}{:>10.1}  {:<21}  {}",
        middle(&read),
        middle(&slow),
        middle(&fast),
        ratios(&read, &slow),
        ratios(&read, &fast)
    )
}

fn over_slow_stand_ins(text: &str) {
    use oracle::{lexer::Lexed, parser::parse};
    use plank_core::Idx;
    use plank_session::{Session, SourceId};
    let lexed = Lexed::lex(black_box(text));
    let mut session = Session::new();
    black_box(parse(&mut session, &lexed, black_box(text), SourceId::ZERO));
    black_box((lexed, session));
}

pub fn over_fast_stand_ins(text: &str) {
    use fast_core::Idx;
    use fast_session::{Session, SourceId};
    use rival::{lexer::Lexed, parser::parse};
    let lexed = Lexed::lex(black_box(text));
    let mut session = Session::new();
    black_box(parse(&mut session, &lexed, black_box(text), SourceId::ZERO));
    black_box((lexed, session));
}
