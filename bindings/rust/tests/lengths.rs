//! `Lengths::enough` is enough: for the worst rows of one token after another, and for generated
//! texts.

use plank::{Refusal, raw::Lengths};

/// A text that isn't too deep is read.
#[track_caller]
fn is_read(text: &str) -> [usize; 3] {
    match plank::parse(text) {
        Ok(tree) => {
            let counts =
                [tree.node_words().len(), tree.value_words().len(), tree.report_words().len()];
            let Lengths { nodes, values, reports, .. } = Lengths::enough(text.len());
            assert!(
                counts.iter().zip([nodes, values, reports]).all(|(count, most)| *count <= most)
            );
            assert!(counts[1] <= text.len() + 1, "{text:?}");
            counts
        }
        Err(Refusal::TooDeep { .. }) => [0; 3],
        Err(refusal) => panic!("{refusal}: {text:?}"),
    }
}

/// A beginning and then the same text again, up to so many bytes.
fn repeated(start: &str, again: &str, most: usize) -> String {
    start.to_string() + &again.repeat((most - start.len()) / again.len())
}

#[test]
fn the_worst_rows_fit() {
    let starts = [
        "",
        "const a=",
        "const a=a",
        "const a=struct{",
        "const a=struct{fn a(){}",
        "const a=a{",
        "const a=fn(",
        "const a=match a{",
        "const a=(",
        "const a=tuple{",
        "init{",
        "init{a",
        "init{let a=",
        "use a",
        "use a::{",
    ];
    let again = [
        ",", "+", ".", "(", "()", "{", "{}", "a,", "a ", "a:", "1,", "1 ", "fn ", "fn(){}", "if ",
        "if{}", "else ", "else,", "=", "let ", "use ", "::", "as ", "*", "*,", "\"\"", "\"\"1",
        "\"\\x\"", "\"\\q", "\"", "hex\"g\"", "@a", "@", "$", "\u{e9}", "]", ";", "comptime ",
        "struct ", "struct{", "match ", "while ", "return ", "init ", "pub ", "0", "-", "fn a,",
        "a,fn ", "fn a(a,", "\"\u{e9}a",
    ];
    for start in starts {
        for again in again {
            is_read(&repeated(start, again, 500));
        }
    }
}

#[test]
fn three_nodes_for_a_byte_occur() {
    let text = repeated("const a=match a{", ",", 60_000);
    let [nodes, ..] = is_read(&text);
    assert!(nodes > plank::NODE_WIDTH * 3 * 59_900, "{nodes}");
}

#[test]
fn generated_texts_fit() {
    let parts = [
        "const ", "a", "=", ";", "init", "run", "{", "}", "(", ")", "fn", "eager ", "struct",
        "tuple", "match ", "if ", "else ", "let ", "mut ", "while ", "inline ", "return ",
        "comptime ", "use ", "pub ", "as ", "::", ":", ",", ".", "*", "+", "-", "!", "=>", "$",
        "@b", "1", "0x1f", " ", "\"\\x\"", "\"\\qa\"", "hex\"4g\"", "true", "Self", "\n", "//",
        "/*", "\"", "@", "\u{e9}",
    ];
    let mut state = 1_u64;
    let mut next = move |below: usize| {
        state =
            state.wrapping_mul(6_364_136_223_846_793_005).wrapping_add(1_442_695_040_888_963_407);
        (state >> 33) as usize % below
    };
    for _ in 0..20_000 {
        let text: String = (0..next(60)).map(|_| parts[next(parts.len())]).collect();
        is_read(&text);
        is_read(&format!("const a=struct{{{text}"));
        is_read(&format!("init{{match a{{{text}"));
    }
}

#[test]
fn the_longest_texts_fit() {
    for (start, again) in [
        ("const a=a", "+"),
        ("init{", "1 "),
        ("init{", "a;"),
        ("const a=struct{", "fn(){}"),
        ("const a=\"", "\\x"),
        ("const a=", "9"),
        ("const a=0x", "f"),
        ("", "$ "),
    ] {
        is_read(&repeated(start, again, plank::MAX_TEXT));
    }
}
