//! Places of refusals, from document 01 and the reading notes.

use oracle::{End, Lengths, Refusal, read, run};

const PLENTY: usize = 100_000;

fn refused(text: &str, nodes: usize, values: usize, reports: usize) -> Option<(u32, u32)> {
    let refusal = run(text).refusal(Lengths { nodes, values, reports });
    refusal.map(|Refusal { number, place }| (number, place))
}

/// Where entering is refused, with room for all else.
fn too_deep(text: &str) -> Option<u32> {
    refused(text, PLENTY, PLENTY, PLENTY).map(|(number, place)| {
        assert_eq!(number, 3, "{text}");
        place
    })
}

fn in_brackets(count: usize, inner: &str) -> String {
    format!("const a = {}{inner}{};", "(".repeat(count), ")".repeat(count))
}

#[test]
fn words_that_dont_fit() {
    assert_eq!(refused("", 5, 0, 0), Some((5, 0)));
    assert_eq!(refused("", 6, 0, 0), None);
    assert_eq!(refused("#", 6, 0, 0), Some((7, 1)));
    assert_eq!(refused("const a = #", 100, 0, 2), Some((7, 7)));
    assert_eq!(refused("x", 6, 0, 0), Some((7, 0)));
    assert_eq!(refused("const a = 1;", 18, 0, 0), Some((6, 7)));
    assert_eq!(refused("const a = 1;", 18, 9, 0), Some((5, 7)));
    assert_eq!(refused("const a = \"s\" ;", 18, 0, 0), Some((6, 8)));
}

/// Those in docs/DIFFERENCES.md.
#[test]
fn small_texts() {
    assert_eq!(refused("run\"", 18, 0, 3), Some((6, 2)));
    assert_eq!(refused("a", 6, 0, 0), Some((7, 0)));
    assert_eq!(too_deep(&format!("run{}", "{".repeat(129))), Some(129));
    assert_eq!(too_deep(&format!("run{}", "{".repeat(128))), None);
}

#[test]
fn depth_of_brackets() {
    assert_eq!(too_deep(&in_brackets(255, "1")), None);
    assert_eq!(too_deep(&in_brackets(256, "1")), Some(262));
    assert_eq!(too_deep(&format!("const a = {}", "( ".repeat(256))), Some(518));
    assert_eq!(too_deep(&format!("const a = {}", "- ".repeat(256))), Some(517));
    assert_eq!(too_deep(&format!("const a = {}", "f( ".repeat(256))), Some(773));
    assert_eq!(too_deep(&format!("const a = {}", "f(".repeat(256))), Some(518));
}

#[test]
fn depth_inside_brackets() {
    for (inner, place) in [("f()", 263), ("tuple {}", 264), ("a+b", 263), ("{}", 261)] {
        assert_eq!(too_deep(&in_brackets(255, inner)), Some(place), "{inner}");
    }
    for inner in ["()", "a{}", "struct {}"] {
        assert_eq!(too_deep(&in_brackets(255, inner)), None, "{inner}");
    }
}

#[test]
fn depth_of_blocks() {
    assert_eq!(too_deep(&format!("init {}", "{ ".repeat(129))), Some(258));
    let nested = |count| format!("init {}{}", "{".repeat(count), "}".repeat(count));
    assert_eq!(too_deep(&nested(128)), None);
    assert!(too_deep(&nested(129)).is_some());
}

/// A watched run gives the words of one that isn't, and its steps add up to them.
#[test]
fn a_watched_run() {
    for text in [
        "const a: b = -c + 1 { d: \"e\" 2 } if a {} else { @f(1, 2) };",
        "init { comptime {} (a) } run { let a = ; b c } use a::{*};",
        "const s = struct a { b: tuple { c }, fn f(a: b, comptime c: $D) t { a = b; } 1 };",
        "const m = match a { 1 => !b, else x => () } } fn",
    ] {
        let words = read(text);
        let run = run(text);
        assert_eq!(run.values, words.values, "{text}");
        assert_eq!(run.reports, words.reports, "{text}");
        let need = run.need();
        assert_eq!((need.nodes, need.reports), (words.nodes.len(), words.reports.len()), "{text}");
        assert_eq!(run.end, End::Read(words), "{text}");
    }
}

#[test]
fn a_panic_keeps_what_was_made() {
    let run = run("const z = \"\\x1\\\\\";");
    assert_eq!(run.end, End::Panicked("lexer guarantees backslash not end".to_string()));
    assert_eq!(run.reports, [12 << 26, 11, 15]);
    assert_eq!(run.cursor, 6);
}
