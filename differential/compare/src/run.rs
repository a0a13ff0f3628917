//! The run over all texts, and what a run counts.

use crate::{check::Differences, library::Lexer, options::LexOptions, shrink::shrink};
use generate::{Texts, behind_mark, short_byte_texts, short_texts, texts_around_the_limit};
use std::{fmt::Display, panic, process::ExitCode, thread};

/// So many differing texts are kept and shown.
const SHOWN: usize = 5;

pub fn lex(options: &LexOptions) -> ExitCode {
    let differences = |text: &[u8]| Differences::of(text, options.plant);
    let mut by_lexer = Lexer::BOTH.map(|lexer| (lexer, 0));
    let mut differs = |text: &[u8]| {
        let found = differences(text);
        for (lexer, texts) in &mut by_lexer {
            *texts += usize::from(found.as_ref().is_some_and(|found| found.is_of(*lexer)));
        }
        found.is_some()
    };
    let mut run = Run::new(500_000);
    if let Some(fault) = options.plant {
        println!("planted fault: {fault:?}");
    }
    run.all("generated", Texts::new(options.seed).take(options.texts), &mut differs);
    run.all("around the limit", texts_around_the_limit(), &mut differs);
    let marked = Texts::new(options.seed).take(options.texts / 2).map(behind_mark);
    run.all("with a mark in front", marked, &mut differs);
    run.all("short", short_texts(), &mut differs);
    run.all("short, of any bytes", short_byte_texts(), &mut differs);
    run.show_first(differences);
    for (lexer, texts) in by_lexer {
        println!("{lexer}: {texts} texts differ");
    }
    run.end("texts, each by both lexers")
}

/// Room for the deepest readings of both sides.
const STACK_BYTES: usize = 1 << 28;

/// A run whose reference may panic: what its panics say is counted, not printed.
pub fn in_a_thread(run: impl FnOnce() -> ExitCode + Send) -> ExitCode {
    panic::set_hook(Box::new(|_| {}));
    thread::scope(|scope| {
        let builder = thread::Builder::new().stack_size(STACK_BYTES);
        let runner = builder.spawn_scoped(scope, run);
        runner.expect("a thread").join().unwrap_or_else(|_| {
            println!("the run itself panicked");
            ExitCode::FAILURE
        })
    })
}

pub struct Run {
    /// A line of progress is printed each time so many texts are done.
    progress: usize,
    texts: usize,
    differences: usize,
    /// The first few texts that differ.
    first: Vec<Vec<u8>>,
}

impl Run {
    pub fn new(progress: usize) -> Self {
        Run { progress, texts: 0, differences: 0, first: Vec::new() }
    }

    pub fn all(
        &mut self,
        sort: &str,
        texts: impl Iterator<Item = Vec<u8>>,
        mut differs: impl FnMut(&[u8]) -> bool,
    ) {
        let before = self.texts;
        for text in texts {
            self.texts += 1;
            if differs(&text) {
                self.keep(text);
            }
            if self.texts.is_multiple_of(self.progress) {
                println!("{} texts so far, {} differences", self.texts, self.differences);
            }
        }
        println!("{sort}: {} texts", self.texts - before);
    }

    fn keep(&mut self, text: Vec<u8>) {
        self.differences += 1;
        if self.first.len() < SHOWN {
            self.first.push(text);
        }
    }

    pub fn texts(&self) -> usize {
        self.texts
    }

    /// Prints the first few differing texts, each made as small as it can be.
    pub fn show_first<D: Display>(&self, difference: impl Fn(&[u8]) -> Option<D>) {
        let small = |text: &Vec<u8>| shrink(text, |text| difference(text).is_some());
        let mut texts: Vec<Vec<u8>> = self.first.iter().map(small).collect();
        texts.sort_by_key(|text| (text.len(), text.clone()));
        texts.dedup();
        for text in &texts {
            let difference = difference(text).expect("shrinking keeps the difference");
            println!("differs: {}\n{difference}", shown(text));
        }
    }

    /// Prints the last line: a text that differs counts once.
    pub fn end(&self, texts: &str) -> ExitCode {
        println!("{} {texts}, {} differences", self.texts, self.differences);
        if self.differences > 0 { ExitCode::FAILURE } else { ExitCode::SUCCESS }
    }
}

pub fn shown(text: &[u8]) -> String {
    const MOST_BYTES: usize = 120;
    match text.get(..MOST_BYTES) {
        Some(start) => format!("\"{}\" .. ({} bytes)", start.escape_ascii(), text.len()),
        None => format!("\"{}\"", text.escape_ascii()),
    }
}
