//! The cases P1 to P12 and the printed tree of document 01, and facts of the reading notes.

use oracle::{NODE_WIDTH, Words, lex, lexer::Lexed, parser::parse, read, try_read};
use plank_core::Idx;
use plank_session::{Session, SourceId};
use std::collections::HashSet;

const BLOCK_COMMENT: u32 = 74;
const INVALID_CHAR: u32 = 76;
const MALFORMED: u32 = 77;
const UNCLOSED_BLOCK_COMMENT: u32 = 79;
const EOF: u32 = 81;

/// Kind and source end of each token.
fn tokens(text: &str) -> Vec<(u32, u32)> {
    lex(text).iter().map(|word| (word >> 25, word & 0x1ff_ffff)).collect()
}

/// The node's kind, with its children in brackets.
fn tree_at(words: &Words, node: u32) -> String {
    let at = node as usize * NODE_WIDTH;
    let kind = words.nodes[at] >> 26;
    let mut child = words.nodes[at + 4];
    let mut children = Vec::new();
    while child != 0 {
        children.push(tree_at(words, child));
        child = words.nodes[child as usize * NODE_WIDTH + 3];
    }
    if children.is_empty() { kind.to_string() } else { format!("{kind}({})", children.join(" ")) }
}

fn tree(text: &str) -> String {
    tree_at(&read(text), 0)
}

/// Kind, detail, source start and source end of each report.
fn reports(text: &str) -> Vec<[u32; 4]> {
    let words = read(text).reports;
    words.chunks(3).map(|r| [r[0] >> 26, r[0] & 0x3ff_ffff, r[1], r[2]]).collect()
}

fn assigned(expression: &str) -> String {
    format!("const z = {expression};")
}

#[test]
fn p1_empty_text() {
    let expected =
        Words { tokens: vec![EOF << 25], nodes: vec![0; NODE_WIDTH], ..Words::default() };
    assert_eq!(read(""), expected);
}

#[test]
fn p2_to_p5_tokens() {
    assert_eq!(tokens("/**/"), [(BLOCK_COMMENT, 4), (EOF, 4)]);
    assert_eq!(tokens("/*/*/"), [(UNCLOSED_BLOCK_COMMENT, 5), (EOF, 5)]);
    assert_eq!(tokens("0xg"), [(MALFORMED, 3), (EOF, 3)]);
    assert_eq!(tokens("==>"), [(26, 2), (29, 3), (EOF, 3)]);
}

#[test]
fn p6_and_p7_grouping() {
    assert_eq!(tree(&assigned("a - b - c")), "0(1(36 15(15(36 44 36) 44 36)))");
    assert_eq!(tree(&assigned("-a.b")), "0(1(36 16(19(36 36))))");
}

#[test]
fn p8_to_p10_strings() {
    let words = read(&assigned(r#""a\x41" hex"42""#));
    assert_eq!(words.values, [2 << 30 | 3, 97 | 65 << 8 | 66 << 16]);
    assert_eq!(words.reports, []);

    let bad_digit = assigned(r#"hex"4g""#);
    assert_eq!(read(&bad_digit).values, [2 << 30 | 1, 64]);
    assert_eq!(reports(&bad_digit), [[14, u32::from('g'), 15, 16]]);

    let odd = assigned(r#"hex"4""#);
    assert_eq!(read(&odd).values, [2 << 30]);
    assert_eq!(reports(&odd), [[15, 0, 10, 16]]);
}

#[test]
fn p11_and_p12_blocks() {
    assert_eq!(tree("init { {} (a) }"), "0(6(45 18(9(45) 36)))");
    assert_eq!(tree("init { comptime {} (a) }"), "0(6(45(8(45)) 17(36)))");
    assert_eq!(reports("init { {} (a) }"), [[0; 4]; 0]);
    assert_eq!(reports("init { comptime {} (a) }"), [[0; 4]; 0]);
}

#[test]
fn printed_tree() {
    let words = read("const a = 1;");
    // Kind, payload, first token, end, next sibling, first child, parent.
    let rows: Vec<[u32; 7]> = words
        .nodes
        .chunks(NODE_WIDTH)
        .map(|n| [n[0] >> 26, n[0] & 0x3ff_ffff, n[1], n[2], n[3], n[4], n[5]])
        .collect();
    let expected = [
        [0, 0, 0, 8, 0, 1, 0],
        [1, 0, 0, 8, 0, 2, 0],
        [36, 2, 2, 3, 3, 0, 1],
        [33, 0, 6, 7, 0, 0, 1],
    ];
    assert_eq!(rows, expected);
    assert_eq!(words.values, [1 << 30 | 1, 1]);
    assert_eq!(words.reports, []);
}

#[test]
fn number_values() {
    assert_eq!(read(&assigned("0")).values, [1 << 30]);
    assert_eq!(read(&assigned("4_294_967_296")).values, [1 << 30 | 2, 0, 1]);
    assert_eq!(read(&assigned("0x00_fFfF_FFFF")).values, [1 << 30 | 1, u32::MAX]);
    assert_eq!(read(&assigned("0b101 + 5")).values, [1 << 30 | 1, 5, 1 << 30 | 1, 5]);
}

#[test]
fn names_and_flags() {
    let words = read("const a = @a; const b = @a(a);");
    let payloads = |kind| {
        let nodes = words.nodes.chunks(NODE_WIDTH).map(|node| node[0]);
        nodes.filter(move |head| head >> 26 == kind).map(|head| head & 0x3ff_ffff)
    };
    assert_eq!(payloads(36).collect::<Vec<_>>(), [2, 11, 2]);
    assert_eq!(payloads(37).collect::<Vec<_>>(), [6, 6]);
    assert_eq!(read("pub use a::*;").nodes[NODE_WIDTH], 2 << 26 | 0b11);
    assert_eq!(read("init { comptime let a: b = c; }").nodes[3 * NODE_WIDTH], 10 << 26 | 0b101);
}

#[test]
fn tokens_of_the_reading_notes() {
    for text in ["0x_1", "0b_1", "0X1", "0x", "0b"] {
        let end = text.len() as u32;
        assert_eq!(tokens(text), [(MALFORMED, end), (EOF, end)], "{text}");
    }
    assert_eq!(tokens("1é"), [(67, 1), (INVALID_CHAR, 3), (EOF, 3)]);
}

#[test]
fn reports_of_the_reading_notes() {
    assert_eq!(reports("init { a b }"), [[4, 0, 8, 9]]);
    assert_eq!(reports("const a = 1 const b = 2;"), [[3, 0, 11, 12]]);
    assert_eq!(reports("\"abc"), [[2, 80, 0, 4]]);
    assert_eq!(reports("const z = \"abc"), [[1, 4, 10, 14], [2, 81, 14, 14]]);
    assert_eq!(reports("use a::{};"), [[9, 0, 7, 8]]);
    assert_eq!(reports("use a::{*};"), [[7, 0, 8, 9], [10, 0, 7, 8]]);
    assert_eq!(reports("use a::{@b, c};"), [[2, 66, 8, 10], [10, 0, 7, 8]]);
    let kinds: Vec<u32> =
        reports(&assigned(r#"hex"g1" hex"g""#)).iter().map(|report| report[0]).collect();
    assert_eq!(kinds, [14, 14, 15]);
}

#[test]
fn panics_of_the_reference() {
    assert_eq!(try_read(&assigned(r#""\x1\\""#)), None);
    assert_eq!(try_read(&assigned(&format!("{}a", "-".repeat(18)))), None);
    assert!(try_read(&assigned(&format!("{}a", "-".repeat(17)))).is_some());
    assert_eq!(try_read(&format!("const z = {}", "(".repeat(17))), None);
}

#[test]
fn deep_nests_are_read() {
    let text = format!("const a = {}1{};", "(".repeat(30_000), ")".repeat(30_000));
    let words = try_read(&text).expect("closed brackets cost no fuel");
    assert_eq!(words.nodes.len() / NODE_WIDTH, 30_004);
}

/// The names of the kinds of node, in the order in which the reference declares them.
fn declared_kinds() -> Vec<&'static str> {
    let source = include_str!(concat!(env!("OUT_DIR"), "/cst/mod.rs"));
    let (_, body) = source.split_once("pub enum NodeKind {").unwrap();
    let (body, _) = body.split_once("\n}").unwrap();
    let lines = body.lines().map(str::trim).filter(|line| !line.starts_with("//"));
    lines.map(leading_name).filter(|name| !name.is_empty()).collect()
}

fn leading_name(text: &str) -> &str {
    text.split(|c: char| !c.is_alphanumeric()).next().unwrap()
}

/// Between them they have every kind of node.
const ALL_KINDS: [&str; 6] = [
    "pub use a::b; use a as b; use a::{b, c as d};",
    "init { comptime {} let a = Self; return 1; a = \"s\"; while a {} inline while b {} {} }",
    "run { -(a + b.c)(@d, true) ; (1,) }",
    "const s = struct a { b: tuple {}, fn f(a: b, comptime c: $D) t {} } { g: 1 };",
    "const i = if a {} else if b {} else { match c { 1 => eager fn() t {}, else x => 2 } };",
    "const e = ;",
];

#[test]
fn kind_numbers_follow_the_declaration() {
    let names = declared_kinds();
    assert_eq!(names.len(), 50);
    let mut seen = HashSet::new();
    for text in ALL_KINDS {
        let tree = parse(&mut Session::new(), &Lexed::lex(text), text, SourceId::ZERO);
        for (node, words) in tree.nodes.iter().zip(read(text).nodes.chunks(NODE_WIDTH)) {
            let number = (words[0] >> 26) as usize;
            assert_eq!(leading_name(&format!("{:?}", node.kind)), names[number]);
            seen.insert(number);
        }
    }
    assert_eq!(seen.len(), names.len());
}
