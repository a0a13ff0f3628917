//! The cases of document 01.

#[path = "../examples/constants.rs"]
#[allow(dead_code)]
mod constants;

use constants::Shape;
use plank::{
    Lexed, NODE_WIDTH, Refusal, ReportKind,
    ast::{Expr, Statement, TopLevelDef},
    cst::{NodeIdx, NodeKind},
    lexer::{ErrorToken, Token, TokenIdx},
};

fn tokens(text: &str) -> Vec<Token> {
    Lexed::lex(text).unwrap().iter().map(|(token, _)| token).collect()
}

/// The shape of what stands between `const z = ` and `;`, and the kinds of the reports.
fn value(text: &str) -> (String, Vec<ReportKind>) {
    let tree = plank::parse(&format!("const z = {text};")).unwrap();
    let defs: Vec<_> = tree.as_file().iter_defs().collect();
    let [TopLevelDef::Const(decl)] = defs[..] else { panic!("{defs:?}") };
    assert_eq!(tree.name(decl.name), "z");
    (Shape(&tree).expr(decl.assign), tree.reports().map(|report| report.kind).collect())
}

/// The statements and the closing expression of the `init` block that a text is.
fn init(text: &str) -> String {
    let tree = plank::parse(text).unwrap();
    let defs: Vec<_> = tree.as_file().iter_defs().collect();
    let [TopLevelDef::Init(init)] = defs[..] else { panic!("{defs:?}") };
    assert_eq!(tree.reports().len(), 0);
    Shape(&tree).block(init.body())
}

#[test]
fn the_example_has_its_words() {
    let tree = plank::parse("const a = 1;").unwrap();
    let head = |kind: u32, payload: u32| kind << 26 | payload;
    #[rustfmt::skip]
    let nodes = [
        head(0, 0), 0, 8, 0, 1, 0,
        head(1, 0), 0, 8, 0, 2, 0,
        head(36, 2), 2, 3, 3, 0, 1,
        head(33, 0), 6, 7, 0, 0, 1,
    ];
    assert_eq!(tree.node_words(), nodes);
    assert_eq!(tree.value_words(), [1 << 30 | 1, 1]);
    assert_eq!(tree.report_words(), []);
    let tokens = [
        0x5e000005, 0x90000006, 0x82000007, 0x90000008, 0x1a000009, 0x9000000a, 0x8600000b,
        0x0000000c, 0xa200000c,
    ];
    assert_eq!(tree.lexed().words(), tokens);
}

#[test]
fn p1_the_empty_text_is_a_file() {
    let tree = plank::parse("").unwrap();
    assert_eq!(tokens(""), [Token::Eof]);
    assert_eq!(tree.node_words(), [0; NODE_WIDTH]);
    assert_eq!(tree.as_file().iter_defs().count(), 0);
}

#[test]
fn p2_to_p5_are_tokens() {
    assert_eq!(tokens("/**/"), [Token::BlockComment, Token::Eof]);
    assert_eq!(tokens("/*/*/"), [Token::UnclosedBlockCommentError, Token::Eof]);
    assert_eq!(tokens("0xg"), [Token::MalformedIdentError, Token::Eof]);
    assert_eq!(tokens("==>"), [Token::DoubleEquals, Token::GreaterThan, Token::Eof]);
}

#[test]
fn a_byte_order_mark_in_front_is_a_blank() {
    let blank = Token::Whitespace;
    assert_eq!(tokens("\u{feff}"), [blank, Token::Eof]);
    assert_eq!(tokens("\u{feff} ;"), [blank, blank, Token::Semicolon, Token::Eof]);
    assert_eq!(tokens("\u{feff}\u{feff}"), [blank, Token::InvalidCharError, Token::Eof]);
    assert_eq!(tokens(" \u{feff}"), [blank, Token::InvalidCharError, Token::Eof]);

    // The tree is that of the text behind the mark; all token numbers but File's first are one higher.
    const IDENTIFIER: u32 = 36;
    let text = "const a = 1;";
    let (plain, marked) =
        (plank::parse(text).unwrap(), plank::parse(&format!("\u{feff}{text}")).unwrap());
    let mut nodes = plain.node_words().to_vec();
    for (number, node) in nodes.chunks_exact_mut(NODE_WIDTH).enumerate() {
        node[0] += u32::from(node[0] >> 26 == IDENTIFIER);
        node[1] += u32::from(number > 0);
        node[2] += 1;
    }
    assert_eq!(marked.node_words(), nodes);
    assert_eq!(marked.value_words(), plain.value_words());
    assert_eq!(marked.reports().len(), 0);
}

#[test]
fn p6_and_p7_group_as_the_chart_has_it() {
    assert_eq!(value("a - b - c"), ("(- (- a b) c)".to_string(), vec![]));
    assert_eq!(value("-a.b"), ("(- (. a b))".to_string(), vec![]));
}

#[test]
fn p8_to_p10_are_bytes() {
    assert_eq!(value(r#""a\x41" hex"42""#), (r#""aAB""#.to_string(), vec![]));
    assert_eq!(value(r#"hex"4g""#), ("\"@\"".to_string(), vec![ReportKind::NonHexDigit('g')]));
    assert_eq!(value(r#"hex"4""#), ("\"\"".to_string(), vec![ReportKind::OddDigits]));
}

#[test]
fn strings_hold_any_characters() {
    let tree = plank::parse("const a = \"épinette\";").unwrap();
    let Some(TopLevelDef::Const(decl)) = tree.as_file().iter_defs().next() else { panic!() };
    let Expr::StringLiteral { value: id, .. } = decl.assign else { panic!("{:?}", decl.assign) };
    assert_eq!(tree.bytes(id), Some("épinette".as_bytes().to_vec()));
    assert_eq!(tree.reports().len(), 0);

    let (e_acute, escape) = (r#""\xc3\xa9""#.to_string(), ReportKind::UnknownEscape('é'));
    assert_eq!(value(r#""é\é""#), (e_acute.clone(), vec![escape]));
    assert_eq!(value(r#""\x4éé""#), (e_acute, vec![ReportKind::BadHexEscape]));
    assert_eq!(value(r#"hex"éé""#), (r#""\x00""#.to_string(), vec![ReportKind::NonHexDigit('é')]));
}

#[test]
fn p11_and_p12_are_statements() {
    assert_eq!(init("init { {} (a) }"), "{(call {} a)}");
    assert_eq!(init("init { comptime {} (a) }"), "{(comptime {}); a}");
    let tree = plank::parse("init { comptime {} (a) }").unwrap();
    let TopLevelDef::Init(init) = tree.as_file().iter_defs().next().unwrap() else { panic!() };
    let first = init.body().statements().next().unwrap();
    assert!(matches!(first, Statement::Expr(Expr::ComptimeBlock(_))), "{first:?}");
    assert_eq!(init.body().node().child(1).unwrap().kind(), NodeKind::ParenExpr);
}

#[test]
fn the_known_exception_is_read() {
    let reports = vec![ReportKind::BadHexEscape, ReportKind::BackslashAtEnd];
    assert_eq!(value(r#""\x1\\""#), ("\"\"".to_string(), reports));
}

/// `const a = `, brackets around 1, `;`.
fn brackets(count: usize) -> String {
    format!("const a = {}1{};", "(".repeat(count), ")".repeat(count))
}

#[test]
fn the_limits_are_01s() {
    assert_eq!(plank::parse(&brackets(255)).unwrap().reports().len(), 0);
    let deep = Refusal::TooDeep { token: TokenIdx::new(262) };
    assert_eq!(plank::parse(&brackets(256)), Err(deep));
    assert_eq!((deep.number(), deep.place()), (3, 262));

    let blanks = " ".repeat(65_536);
    assert_eq!(plank::parse(&blanks).unwrap().lexed().len(), TokenIdx::new(2));
    let blanks = blanks + " ";
    assert_eq!(plank::parse(&blanks), Err(Refusal::TooLong));
    assert_eq!(Lexed::lex(&blanks), Err(Refusal::TooLong));
    assert_eq!((Refusal::TooLong.number(), Refusal::TooLong.place()), (2, 65_536));
}

#[test]
fn reports_say_what_and_where() {
    let tree = plank::parse("const a 1; $").unwrap();
    let reports: Vec<String> = tree.reports().map(|report| report.to_string()).collect();
    assert_eq!(reports, ["8..9: unexpected DecimalLiteral", "11..12: unexpected Dollar"]);
    let tree = plank::parse("const a = 0xg;").unwrap();
    let error = ReportKind::LexerError(ErrorToken::MalformedIdent);
    assert_eq!(tree.reports().next().unwrap().kind, error);
    assert_eq!(tree.reports().next().unwrap().kind.number(), 1);
}

#[test]
fn names_are_alike_where_their_numbers_are() {
    let tree = plank::parse("const a = b; const b = a;").unwrap();
    let consts = tree.as_file().iter_defs().map(|def| match def {
        TopLevelDef::Const(decl) => (decl.name, decl.assign),
        other => panic!("{other:?}"),
    });
    let [(a, Expr::Ident { name: b, .. }), (b2, Expr::Ident { name: a2, .. })] =
        consts.collect::<Vec<_>>()[..]
    else {
        panic!()
    };
    assert_eq!((a, b), (a2, b2));
    assert_eq!((tree.name(a), tree.name(b)), ("a", "b"));
    assert_eq!(tree.node(NodeIdx::new(2)).unwrap().kind, NodeKind::Identifier { ident: a });
}
