//! The reference says the same over the fast stand-ins as over those that the comparison has.

use generate::{
    NameTexts, ParseTexts, Texts, long_texts, nests, short_rows, short_strings,
    texts_around_the_limit,
};
use std::{
    fmt::Debug,
    panic::{self, UnwindSafe},
    thread,
};

/// Enough for the deepest nest that fits into a text.
const STACK_BYTES: usize = 1 << 30;

#[test]
fn parse_texts() {
    hold_equal(|| ParseTexts::new(1).take(80_000));
}

#[test]
fn texts_of_all_sorts() {
    let texts = || Texts::new(1).filter_map(|text| String::from_utf8(text).ok());
    hold_equal(move || texts().take(40_000));
}

#[test]
fn rows_strings_and_nests() {
    hold_equal(|| short_rows().step_by(7).chain(short_strings().step_by(7)).chain(nests()));
}

#[test]
fn long_texts_and_many_names() {
    let around = || texts_around_the_limit().filter_map(|text| String::from_utf8(text).ok());
    hold_equal(move || NameTexts::new(1).take(400).chain(long_texts()).chain(around()));
}

fn hold_equal<T: Iterator<Item = String>>(texts: impl FnOnce() -> T + Send) {
    panic::set_hook(Box::new(|_| {}));
    let difference = thread::scope(|scope| {
        let holder = thread::Builder::new().stack_size(STACK_BYTES);
        let holder = holder.spawn_scoped(scope, || texts().find_map(|text| difference(&text)));
        holder.expect("a thread").join().expect("panics of the reference are caught")
    });
    if let Some(difference) = difference {
        println!("{difference}");
        panic!("there is a difference");
    }
}

fn difference(text: &str) -> Option<String> {
    let slow = outcome(|| oracle::read(text)).map(|words| {
        let oracle::Words { tokens, nodes, values, reports } = words;
        [tokens, nodes, values, reports]
    });
    let fast = outcome(|| rival::read(text)).map(|words| {
        let rival::Words { tokens, nodes, values, reports } = words;
        [tokens, nodes, values, reports]
    });
    // A panic of the parser leaves the tokens to be compared.
    let is_same = slow == fast && (slow.is_ok() || oracle::lex(text) == rival::lex(text));
    (!is_same).then(|| {
        let start: String = text.chars().take(2000).collect();
        format!("{start}\n{}", first_difference(&slow, &fast))
    })
}

/// What is said of a text, or the message of the panic.
fn outcome<W>(read: impl FnOnce() -> W + UnwindSafe) -> Result<W, String> {
    panic::catch_unwind(read).map_err(|panic| match panic.downcast::<String>() {
        Ok(message) => *message,
        Err(panic) => panic.downcast_ref::<&str>().unwrap_or(&"").to_string(),
    })
}

type Outcome = Result<[Vec<u32>; 4], String>;

fn first_difference(slow: &Outcome, fast: &Outcome) -> String {
    let (Ok(slow), Ok(fast)) = (slow, fast) else {
        return pair("outcomes", slow.as_ref().err(), fast.as_ref().err());
    };
    let lists = ["tokens", "nodes", "values", "reports"].into_iter().zip(slow.iter().zip(fast));
    let told = lists.filter(|(_, (slow, fast))| slow != fast).map(|(list, (slow, fast))| {
        let at = (0..).find(|at| slow.get(*at) != fast.get(*at)).expect("a place");
        let some = |words: &[u32]| words.iter().skip(at).take(8).copied().collect::<Vec<_>>();
        pair(&format!("{list} from word {at}"), some(slow), some(fast))
    });
    told.collect::<Vec<_>>().join("\n")
}

fn pair(what: &str, slow: impl Debug, fast: impl Debug) -> String {
    format!("{what}\n  slow {slow:?}\n  fast {fast:?}")
}
