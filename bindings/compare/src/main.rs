//! Compares what the views of the crate `plank` say of a script with what the Plank parser's own say.
//!
//! `compare-views [TEXTS [SEED]]`: ends with `N texts, C free of reports, D differences`, and with
//! status 1 where D is above 0.

mod ours;
mod theirs;

use generate::Rng;
use plank_core::Idx;
use plank_session::{Session, SourceId};
use std::{env, panic, process, thread};

/// For trees that are deep on their left.
const STACK_BYTES: usize = 1 << 30;

fn main() {
    let mut numbers = env::args().skip(1).map(|arg| arg.parse().expect("a number"));
    let (texts, seed) = (numbers.next().unwrap_or(20_000), numbers.next().unwrap_or(1));
    // The Plank parser panics on some texts (docs/DIFFERENCES.md), which are skipped.
    panic::set_hook(Box::new(|_| {}));
    let run = thread::Builder::new().stack_size(STACK_BYTES).spawn(move || run(texts, seed));
    let differences = run.expect("a thread").join().expect("the comparison ends");
    process::exit(i32::from(differences > 0));
}

fn run(texts: u64, seed: u64) -> u64 {
    let mut rng = Rng::new(seed);
    let (mut compared, mut clean, mut differences) = (0, 0, 0);
    for n in 0..texts {
        let text = match n % 3 {
            0 => generate::script(&mut rng),
            1 => generate::damaged_script(&mut rng),
            _ => soup(&mut rng),
        };
        let (Some(theirs), Ok(tree)) = (theirs_of(&text), plank::parse(&text)) else { continue };
        compared += 1;
        clean += u64::from(tree.reports().len() == 0);
        let ours = ours::walk::file(tree.as_file());
        if ours != theirs {
            differences += 1;
            println!("{text:?}\nours\n{ours}theirs\n{theirs}");
        }
    }
    println!("{compared} texts, {clean} free of reports, {differences} differences");
    differences
}

/// A beginning, and then any tokens.
fn soup(rng: &mut Rng) -> String {
    let starts = [
        "", "const a=", "const a:", "init{", "const a=struct{", "const a=match a{", "const a=fn(",
        "use ", "use a::{", "init{let ", "const a=if ", "const a=a{",
    ];
    let count = rng.below(40);
    let tokens = (0..count).map(|_| rng.pick(generate::TOKENS)).collect::<Vec<_>>().join(" ");
    rng.pick(&starts).to_string() + &tokens
}

fn theirs_of(text: &str) -> Option<String> {
    let read = || {
        let lexed = oracle::lexer::Lexed::lex(text);
        let mut session = Session::new();
        let tree = oracle::parser::parse(&mut session, &lexed, text, SourceId::ZERO);
        theirs::walk::file(tree.as_file())
    };
    panic::catch_unwind(read).ok()
}
