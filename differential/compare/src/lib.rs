//! Compares the library with the reference, text by text.

mod accents;
mod answer;
mod chart;
mod check;
mod fault;
mod fuzzed;
mod library;
mod mark;
mod options;
mod read;
mod record;
mod run;
mod shrink;
mod utf8;
mod views;

use options::Command;
use std::process::ExitCode;

pub use read::difference as difference_in_reading;

/// What the command line asks for.
pub fn command(words: impl Iterator<Item = String>) -> ExitCode {
    match Command::read(words) {
        Ok(Command::Lex(options)) => run::lex(&options),
        Ok(Command::Read(options)) => read::run(&options),
        Ok(Command::Views(options)) => views::run(&options),
        Ok(Command::Chart(options)) => chart::run(&options),
        Ok(Command::Record { file }) => record::write(&file),
        Ok(Command::RecordParse { file }) => read::record(&file),
        Err(message) => {
            eprintln!("{message}\n{}", options::USAGE);
            ExitCode::from(2)
        }
    }
}
