//! Times the library beside the reference in reading, and its two lexers beside each other, on the same texts,
//! and looks for texts that it is slow on.

mod lex;
mod library;
mod read;
mod search;
mod texts;
mod timing;

use std::{env, process::ExitCode};

const USAGE: &str = "bench [read | lex | search [--seconds N] [--seed S]]";

fn main() -> ExitCode {
    let arguments: Vec<String> = env::args().skip(1).collect();
    let words: Vec<&str> = arguments.iter().map(String::as_str).collect();
    match words.as_slice() {
        [] => {
            read::print();
            lex::print();
        }
        ["read"] => read::print(),
        ["lex"] => lex::print(),
        ["search", options @ ..] => match search::Options::read(options) {
            Some(options) => search::print(&options),
            None => return usage(),
        },
        _ => return usage(),
    }
    ExitCode::SUCCESS
}

fn usage() -> ExitCode {
    eprintln!("{USAGE}");
    ExitCode::from(2)
}
