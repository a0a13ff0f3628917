//! The numbers of this crate and of plank.h are those of the Rattle sources.

use super::*;
use crate::raw;
use std::{collections::BTreeMap, fmt::Debug, fs, path::PathBuf};

type Rows = Vec<(String, u64)>;

/// A file of the project.
fn file(path: &str) -> String {
    let path = PathBuf::from(env!("CARGO_MANIFEST_DIR")).join("../..").join(path);
    fs::read_to_string(&path).unwrap_or_else(|error| panic!("{}: {error}", path.display()))
}

/// The constants of a source in Rattle or Rust, in their order: `pub const NAME: u32 = 1;`.
fn constants(source: &str) -> Rows {
    let row = |line: &str| {
        let line = line.trim().trim_start_matches("pub(crate) ").trim_start_matches("pub ");
        let (name, rest) = line.strip_prefix("const ")?.split_once(':')?;
        let (_, number) = rest.strip_suffix(';')?.split_once("= ")?;
        Some((name.to_string(), number.replace('_', "").parse().ok()?))
    };
    source.lines().filter_map(row).collect()
}

/// `NotUtf8Start` is the name `NOT_UTF8_START`.
fn constant(case: &str) -> String {
    let parts = case.char_indices().map(|(i, letter)| {
        let between = if i > 0 && letter.is_uppercase() { "_" } else { "" };
        format!("{between}{}", letter.to_uppercase())
    });
    parts.collect()
}

/// The cases of a source's enum, in their order, by the names of constants: `Name = 1,`, or one more than the case before.
fn cases(source: &str) -> Rows {
    let Some((_, rest)) = source.split_once("pub enum ") else {
        return Rows::new();
    };
    let body = rest.split("\n}").next().unwrap_or("");
    let mut next = 0;
    let row = |line: &str| {
        let case = line.strip_prefix("    ")?.strip_suffix(',')?;
        let (name, number) = case.split_once(" = ").unwrap_or((case, ""));
        let number = number.parse().unwrap_or(next);
        next = number + 1;
        Some((constant(name), number))
    };
    body.lines().skip(1).filter_map(row).collect()
}

/// The numbers of a module: its constants, or the cases of its enum.
fn words(module: &str) -> Rows {
    let source = file(&format!("crates/words/src/{module}.rt"));
    [constants(&source), cases(&source)].concat()
}

fn without(rows: Rows, name: &str) -> Rows {
    rows.into_iter().filter(|row| row.0 != name).collect()
}

/// `DOUBLE_EQUALS` is the case `DoubleEquals`.
fn case(name: &str) -> String {
    let parts = name.split('_').map(|part| part[..1].to_string() + &part[1..].to_lowercase());
    parts.collect()
}

#[track_caller]
fn same_cases<T: Debug + Copy>(all: &[T], number: fn(T) -> u32, rows: Rows) {
    assert!(!rows.is_empty());
    let cases: Rows =
        all.iter().map(|case| (format!("{case:?}"), u64::from(number(*case)))).collect();
    let wanted: Rows = rows.iter().map(|(name, number)| (case(name), *number)).collect();
    assert_eq!(cases, wanted);
}

#[test]
fn cases_are_those_of_the_sources() {
    same_cases(Token::ALL, Token::number, words("token"));
    same_cases(ErrorToken::ALL, ErrorToken::number, words("error_token"));
    same_cases(NodeTag::ALL, NodeTag::number, without(words("node"), "NODE_WIDTH"));
    same_cases(BinaryOp::ALL, BinaryOp::number, words("binary_op"));
    same_cases(UnaryOp::ALL, UnaryOp::number, words("unary_op"));
    same_cases(ValueTag::ALL, ValueTag::number, words("value"));
    same_cases(ReportTag::ALL, ReportTag::number, without(words("report"), "REPORT_WIDTH"));
    same_cases(RefusalTag::ALL, RefusalTag::number, words("refusal"));
}

#[test]
fn constants_are_those_of_the_sources() {
    let own = constants(&file("bindings/rust/src/numbers.rs"));
    let mut wanted = words("flag");
    wanted.extend(words("lib"));
    let widths = [words("node"), words("report")].concat();
    wanted.extend(widths.into_iter().filter(|row| row.0.ends_with("_WIDTH")));
    assert_eq!(without(own, "MAX_TEXT"), wanted);

    let accessors = constants(&file("crates/accessors/src/number.rt"));
    assert!(!accessors.is_empty());
    assert_eq!(constants(&file("bindings/rust/src/accessor.rs")), accessors);

    let codes = constants(&file("crates/codes/src/lib.rt"));
    assert_eq!(codes, [("NOTHING".to_string(), raw::NONE)]);
}

/// The rows `PLANK_NAME = 1` and `#define PLANK_NAME 1` of the header.
fn header_rows(header: &str) -> Rows {
    let row = |line: &str| {
        let line = line.trim();
        let (name, number) = match line.strip_prefix("#define PLANK_") {
            Some(rest) => rest.split_once(' ')?,
            None => line.strip_prefix("PLANK_")?.split_once(" = ")?,
        };
        let number = number.split([',', ' ']).next()?;
        Some((name.to_string(), number.parse().ok()?))
    };
    header.lines().filter_map(row).collect()
}

#[test]
fn the_header_has_the_same_numbers() {
    let header = file("bindings/c/plank.h");
    let mut rows = header_rows(&header).into_iter();
    for module in [
        "token", "node", "binary_op", "unary_op", "flag", "value", "report", "error_token",
        "refusal",
    ] {
        for (name, number) in words(module).into_iter().filter(|row| !row.0.ends_with("_WIDTH")) {
            let name = format!("{}_{name}", module.to_uppercase());
            assert_eq!(rows.next(), Some((name, number)));
        }
    }
    for (name, number) in constants(&file("crates/accessors/src/number.rt")) {
        assert_eq!(rows.next(), Some((format!("VIEW_{name}"), number)));
    }
    for row in words("lib") {
        assert_eq!(rows.next(), Some(row));
    }
    for (name, number) in
        [("NODE_WIDTH", NODE_WIDTH), ("REPORT_WIDTH", REPORT_WIDTH), ("MAX_TEXT", MAX_TEXT)]
    {
        assert_eq!(rows.next(), Some((name.to_string(), number as u64)));
    }
    // What is left are the header's own.
    let own = |row: &(String, u64)| row.0.starts_with("MISUSE_") || row.0.starts_with("SLICE_");
    assert_eq!(rows.find(|row| !own(row)), None);
    assert!(header.contains("#define PLANK_NONE (UINT64_C(1) << 63)"));
}

/// Accessors of lists are given the number of an item in the sources; those of any node go through `NodeView` and end in `_at`.
fn is_item(sources: &str, name: &str) -> bool {
    ["", "_at"].iter().any(|end| {
        sources.contains(&format!("number::{name} => {}{end}(nodes, n, i)", name.to_lowercase()))
    })
}

#[test]
fn the_header_has_a_function_for_each_accessor() {
    let groups = ["any", "items", "statements", "functions", "operators", "structs", "branches"];
    let sources: String =
        groups.iter().map(|group| file(&format!("crates/accessors/src/{group}.rt"))).collect();
    let wanted: Vec<String> = constants(&file("crates/accessors/src/number.rt"))
        .into_iter()
        .map(|(name, _)| {
            let kind = match &name {
                name if name.ends_with("SPAN") => "SPAN",
                name if name.ends_with("COUNT") => "COUNT",
                name if is_item(&sources, name) => "ITEM",
                _ => "NUMBER",
            };
            format!("PLANK_{kind}_VIEW({}, {name})", name.to_lowercase())
        })
        .collect();
    let header = file("bindings/c/plank.h");
    let own: Vec<&str> = header
        .lines()
        .filter(|line| line.starts_with("PLANK_") && line.contains("_VIEW("))
        .collect();
    assert_eq!(own, wanted);
}

/// The heads of the functions that Rattle exports, each on one line.
fn exported() -> BTreeMap<String, String> {
    let source = file("crates/exports_c/src/lib.rt");
    let heads = source.split("pub extern \"C\" fn ").skip(1);
    heads
        .map(|head| {
            let head = head.split("ensures").next().unwrap_or("");
            let head: String = head.split_whitespace().collect();
            let (name, rest) = head.split_once('(').unwrap();
            (name.to_string(), rest.replace(",)", ")"))
        })
        .collect()
}

/// What `ffi` and the header declare: a slice is a pointer and a length.
#[test]
fn the_library_exports_what_is_declared() {
    let wanted = [
        ("plank_lex", "text:&[u8],tokens:&mut[u32])->u64"),
        ("plank_lex_branching", "text:&[u8],tokens:&mut[u32])->u64"),
        (
            "plank_read",
            "text:&[u8],tokens:&mut[u32],nodes:&mut[u32],values:&mut[u32],reports:&mut[u32],counts:&mut[u64])->u64",
        ),
        ("plank_view", "which:u32,nodes:&[u32],n:u32,i:u32)->u64"),
        ("plank_view_count", "which:u32,nodes:&[u32],n:u32)->u64"),
        ("plank_view_span", "which:u32,nodes:&[u32],n:u32,span:&mut[u32])->u64"),
    ];
    let wanted = wanted.map(|(name, head)| (name.to_string(), head.to_string()));
    assert_eq!(exported(), BTreeMap::from(wanted));
}
