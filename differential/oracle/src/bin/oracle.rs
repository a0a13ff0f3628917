//! Prints the reference's words for the text on standard input.

use oracle::{NODE_WIDTH, Words, try_read};
use std::{
    io::{self, Read},
    panic,
    process::ExitCode,
};

fn main() -> ExitCode {
    let mut text = String::new();
    if let Err(error) = io::stdin().read_to_string(&mut text) {
        eprintln!("standard input: {error}");
        return ExitCode::FAILURE;
    }
    panic::set_hook(Box::new(|panic| eprintln!("the reference panics: {panic}")));
    match try_read(&text) {
        Some(words) => print(&words, &text),
        None => return ExitCode::FAILURE,
    }
    ExitCode::SUCCESS
}

fn print(words: &Words, text: &str) {
    println!("tokens {}: kind end spelling", words.tokens.len());
    let mut start = 0;
    for (number, word) in words.tokens.iter().enumerate() {
        let end = (word & 0x1ff_ffff) as usize;
        println!("{number}: {} {end} {:?}", word >> 25, &text[start..end]);
        start = end;
    }
    println!(
        "nodes {}: kind payload first end sibling child parent",
        words.nodes.len() / NODE_WIDTH
    );
    for (number, node) in words.nodes.chunks(NODE_WIDTH).enumerate() {
        println!("{number}: {} {}", headed(node[0]), joined(&node[1..]));
    }
    println!("values {}", words.values.len());
    for (offset, word) in words.values.iter().enumerate() {
        println!("{offset}: {word:#010x}");
    }
    println!("reports {}: kind detail start end", words.reports.len() / 3);
    for report in words.reports.chunks(3) {
        println!("{} {}", headed(report[0]), joined(&report[1..]));
    }
}

/// The kind in the top six bits, then the other 26.
fn headed(word: u32) -> String {
    format!("{} {}", word >> 26, word & 0x3ff_ffff)
}

fn joined(words: &[u32]) -> String {
    words.iter().map(u32::to_string).collect::<Vec<_>>().join(" ")
}
