//! The run over all texts.

use crate::{
    answer::MOST_BYTES,
    options::ReadOptions,
    read::{
        check::{Difference, first_difference, first_difference_unreadable},
        fault::Fault,
        tally::Tally,
    },
    run::{Run, in_a_thread},
};
use generate::{
    NameTexts, ParseTexts, Texts, behind_mark, long_texts, nests, short_rows, short_strings,
    texts_around_the_limit,
};
use std::{fmt, iter, process::ExitCode};

pub fn run(options: &ReadOptions) -> ExitCode {
    in_a_thread(|| run_all(options))
}

fn run_all(options: &ReadOptions) -> ExitCode {
    let fault = options.plant;
    let mut tally = Tally::default();
    let mut run = Run::new(100_000);
    if let Some(fault) = fault {
        println!("planted fault: {fault:?}");
    }
    let mut all = |sort: &str, texts: &mut dyn Iterator<Item = Vec<u8>>| {
        run.all(sort, texts, |text| difference_in(text, fault, &mut tally).is_some());
    };
    let generated = ParseTexts::new(options.seed).take(options.texts);
    all("generated", &mut generated.map(String::into_bytes));
    all("nests", &mut nests().map(String::into_bytes));
    all("short rows", &mut short_rows().map(String::into_bytes));
    all("short strings", &mut short_strings().map(String::into_bytes));
    let named = NameTexts::new(options.seed).take(options.texts / 500);
    all("with many names", &mut named.map(String::into_bytes));
    let limit_texts = texts_around_the_limit();
    all("as long as may be", &mut long_texts().map(String::into_bytes).chain(limit_texts));
    let marked = ParseTexts::new(options.seed).take(options.texts / 4).map(String::into_bytes);
    all("with a mark in front", &mut marked.chain(iter::once(Vec::new())).map(behind_mark));
    all("generated, of any bytes", &mut Texts::new(options.seed).take(options.texts / 2));
    print!("{tally}");
    run.show_first(|text| difference_in(text, fault, &mut Tally::default()));
    run.end("texts")
}

/// What differs in the reading of one text.
pub fn difference(text: &[u8]) -> Option<impl fmt::Display> {
    difference_in(text, None, &mut Tally::default())
}

fn difference_in(text: &[u8], fault: Option<Fault>, tally: &mut Tally) -> Option<Difference> {
    match str::from_utf8(text) {
        Ok(readable) if text.len() <= MOST_BYTES => first_difference(readable, fault, tally),
        _ => first_difference_unreadable(text, fault, tally),
    }
}
