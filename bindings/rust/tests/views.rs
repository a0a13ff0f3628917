//! Views of a script that has every kind of expression, statement and declaration.

#[path = "../examples/constants.rs"]
#[allow(dead_code)]
mod constants;

use constants::Shape;
use plank::{
    ConcreteSyntaxTree, NODE_WIDTH, accessor,
    ast::{Expr, ImportSuffix, Statement, TopLevelDef},
    cst::{NodeIdx, NodeView, StrId},
    lexer::TokenIdx,
    raw,
};
use std::{collections::HashSet, iter, mem};

const SCRIPT: &str = r#"
use a::b;
pub use a::b::*;
use a::b as c;
pub use m::n::{x, y as z};
const typed: u256 = -1;
const big = 0xff_0000_0001;
const string = "a\x41" hex"42";
const pair = (1, (true),);
const unit = ();
const types = tuple { u8, Self };
const function = eager fn(comptime n: u8, x: $T, y: T) T { return x; };
const structure = struct Index {
    a: u8,
    b: u8,
    fn get(self: Self) u8 { self.a }
    eager fn set() u8 { 1 }
};
const literal = structure { a: 1, b: false };
const choice = if a == b { 1 } else if c { 2 } else if d {} else { 3 };
const picked = match x { 1 => a, (2) => { b }, else other => other };
const fallen = match x { else => 1 };
const called = a.b(1, (c), ~d)(!e) + @log(f);
const block = {
    let mut a: T = 1;
    comptime let b = 2;
    a.x = b + 1;
    while a < b { a; }
    inline while true {}
    comptime {}
    if x {}
    f();
    a
};
const computed = comptime { 1 };
init { return 0; }
run {}
"#;

const SHAPES: &[(&str, &str)] = &[
    ("typed", "(- 1)"),
    ("big", "0xff00000001"),
    ("string", "\"aAB\""),
    ("pair", "(tuple 1 true)"),
    ("unit", "(tuple)"),
    ("types", "(tuple-type u8 Self)"),
    ("function", "(eager-fn comptime-n:u8 x:$T y:T T {return x;})"),
    (
        "structure",
        "(struct Index a:u8 b:u8 (fn get self:Self u8 {(. self a)}) (eager-fn set u8 {1}))",
    ),
    ("literal", "(lit structure a=1 b=false)"),
    ("choice", "(if (== a b) {1} c {2} d {} {3})"),
    ("picked", "(match x 1=>a 2=>{b} else-other=>other)"),
    ("fallen", "(match x else=>1)"),
    ("called", "(+ (call (call (. a b) 1 c (~ d)) (! e)) (call @log f))"),
    (
        "block",
        "{let mut-a:T=1; let comptime-b=2; (. a x)=(+ b 1); while (< a b) {a;}; inline-while true {}; \
         (comptime {}); (if x {}); (call f); a}",
    ),
    ("computed", "(comptime {1})"),
];

fn tree() -> ConcreteSyntaxTree {
    let tree = plank::parse(SCRIPT).unwrap();
    assert_eq!(tree.reports().len(), 0, "{:?}", tree.reports().next());
    tree
}

#[test]
fn constants_have_their_shapes() {
    let tree = tree();
    let mut shapes = SHAPES.iter();
    for def in tree.as_file().iter_defs() {
        if let TopLevelDef::Const(decl) = def {
            let shape = Shape(&tree).expr(decl.assign);
            assert_eq!(shapes.next(), Some(&(tree.name(decl.name), shape.as_str())));
            assert_eq!(tree.text(decl.name_span), tree.name(decl.name));
            assert!(tree.text(decl.span()).starts_with("const "));
            let ty = decl.r#type.map(|ty| Shape(&tree).expr(ty));
            assert_eq!(ty.as_deref(), (tree.name(decl.name) == "typed").then_some("u256"));
        }
    }
    assert_eq!(shapes.next(), None);
}

#[test]
fn every_case_of_expressions_and_statements_occurs() {
    let tree = tree();
    let mut exprs = HashSet::new();
    let mut statements = HashSet::new();
    for n in 0..tree.node_count() {
        let view = NodeView::new(&tree, NodeIdx::new(n)).unwrap();
        exprs.extend(Expr::new(view).map(|expr| mem::discriminant(&expr)));
        statements.extend(Statement::new(view).map(|statement| mem::discriminant(&statement)));
    }
    // All but `Error`, which a script free of reports doesn't have.
    assert_eq!((exprs.len(), statements.len()), (19, 5));
}

#[test]
fn imports_have_paths_and_suffixes() {
    let tree = tree();
    let names = |ids: &[StrId]| ids.iter().map(|id| tree.name(*id)).collect::<Vec<_>>().join("/");
    let mut seen = Vec::new();
    for def in tree.as_file().iter_defs() {
        let mut path = Vec::new();
        match def {
            TopLevelDef::Import(import) => {
                import.collect_path_segments(&mut path);
                let suffix = match import.suffix {
                    ImportSuffix::As(None) => "".to_string(),
                    ImportSuffix::As(Some(name)) => format!(" as {}", tree.name(name)),
                    ImportSuffix::All => " all".to_string(),
                };
                let file = tree.text(import.file_path_span());
                let (first, last) =
                    (import.first_path_segment_span(), import.last_path_segment_span());
                let ends = format!("{}..{}", tree.text(first), tree.text(last));
                seen.push(format!("{} {} {ends} {file}{suffix}", import.public, names(&path)));
            }
            TopLevelDef::ImportGroup(group) => {
                group.collect_path_segments(&mut path);
                let items = group.items().map(|item| {
                    let alias = item.alias().map_or("-", |alias| tree.name(alias));
                    format!("{}:{alias}", tree.name(item.name().unwrap()))
                });
                let items: Vec<String> = items.collect();
                let file = tree.text(group.file_path_span());
                seen.push(format!("{} {} {file} {items:?}", group.public, names(&path)));
            }
            _ => {}
        }
    }
    let wanted = [
        "false a/b a..b a",
        "true a/b a..b a::b all",
        "false a/b a..b a as c",
        r#"true m/n m::n ["x:-", "y:z"]"#,
    ];
    assert_eq!(seen, wanted);
}

/// The iterators go by links; the accessors tell the same nodes.
#[test]
fn lists_are_those_of_the_accessors() {
    let tree = tree();
    let nodes = tree.node_words();
    for n in 0..tree.node_count() {
        let view = NodeView::new(&tree, NodeIdx::new(n)).unwrap();
        let told = |which: u32, which_count: u32| -> Vec<u32> {
            let count = raw::count(which_count, nodes, n).unwrap().unwrap_or(0);
            (0..count as u32).map(|i| raw::number(which, nodes, n, i).unwrap().unwrap()).collect()
        };
        let children: Vec<u32> = view.children().map(|child| child.idx().get()).collect();
        assert_eq!(children, told(accessor::CHILD, accessor::CHILD_COUNT));
        let kind = nodes[NODE_WIDTH * n as usize] >> 26;
        assert_eq!(raw::number(accessor::KIND, nodes, n, 0), Ok(Some(kind)));
        assert_eq!(raw::span(accessor::SPAN, nodes, n), Ok(Some(view.span())));
        lists_of(view, &told);
    }
}

/// From every node up to the file, and from every token to its declaration.
#[test]
fn an_editor_climbs_from_a_token_to_its_declaration() {
    let tree = tree();
    let file = tree.file_view();
    assert!(file.parent().is_none() && file.enclosing_declaration().is_none());
    for n in 0..tree.node_count() {
        let view = NodeView::new(&tree, NodeIdx::new(n)).unwrap();
        for child in view.children() {
            assert_eq!(child.parent().map(NodeView::idx), Some(view.idx()));
        }
        let up = numbers(iter::once(view).chain(view.ancestors()));
        assert_eq!(up.last(), Some(&0));
        let declaration = view.enclosing_declaration().map(|found| found.idx().get());
        assert_eq!(declaration.as_ref(), up.iter().rev().nth(1));
    }
    let end = file.span().end.get();
    for token in (0..end).map(TokenIdx::new) {
        let covers = |view: &NodeView<'_>| view.span().start <= token && token < view.span().end;
        let found = file.node_at_token(token).unwrap();
        assert!(covers(&found) && !found.children().any(|child| covers(&child)));
        assert!(found.ancestors().all(|view| covers(&view)));
    }
    assert!(file.node_at_token(TokenIdx::new(end)).is_none());
}

fn numbers<'a>(views: impl Iterator<Item = NodeView<'a>>) -> Vec<u32> {
    views.map(|view| view.idx().get()).collect()
}

/// Each list of a node, as the views and as the accessors have it.
fn lists_of(view: NodeView<'_>, told: &dyn Fn(u32, u32) -> Vec<u32>) {
    use accessor::*;
    if let TopLevelDef::ImportGroup(group) = TopLevelDef::new(view) {
        let items = numbers(group.items().map(|item| item.node()));
        assert_eq!(items, told(IMPORT_GROUP_ITEM, IMPORT_GROUP_ITEM_COUNT));
    }
    if plank::ast::File::new(view).is_some() {
        assert_eq!(numbers(view.children()), told(FILE_DEF, FILE_DEF_COUNT));
    }
    match Expr::new(view) {
        // Brackets have views of what is inside.
        Some(expr) if expr.span() != view.span() => {}
        Some(Expr::Call(call)) => {
            assert_eq!(call.args().count(), told(CALL_EXPR_ARG, CALL_EXPR_ARG_COUNT).len());
        }
        Some(Expr::StructDef(def)) => {
            let fields = numbers(def.fields().map(|field| field.unwrap().node()));
            assert_eq!(fields, told(STRUCT_DEF_FIELD, STRUCT_DEF_FIELD_COUNT));
            let methods = numbers(def.methods().map(|method| method.unwrap().node()));
            assert_eq!(methods, told(STRUCT_DEF_METHOD, STRUCT_DEF_METHOD_COUNT));
        }
        Some(Expr::StructLit(lit)) => {
            let fields = numbers(lit.fields().map(|field| field.unwrap().node()));
            assert_eq!(fields, told(STRUCT_LIT_FIELD, STRUCT_LIT_FIELD_COUNT));
        }
        Some(Expr::TupleType(tuple)) => {
            assert_eq!(
                tuple.fields().count(),
                told(TUPLE_TYPE_FIELD, TUPLE_TYPE_FIELD_COUNT).len()
            );
        }
        Some(Expr::TupleLit(tuple)) => {
            assert_eq!(tuple.fields().count(), told(TUPLE_LIT_FIELD, TUPLE_LIT_FIELD_COUNT).len());
        }
        Some(Expr::If(e)) => {
            let branches = numbers(e.else_if_branches().map(|branch| branch.unwrap().node()));
            assert_eq!(branches, told(IF_EXPR_ELSE_IF_BRANCH, IF_EXPR_ELSE_IF_BRANCH_COUNT));
        }
        Some(Expr::Match(e)) => {
            let arms = numbers(e.arms().map(|arm| arm.unwrap().view));
            assert_eq!(arms, told(MATCH_EXPR_ARM, MATCH_EXPR_ARM_COUNT));
        }
        Some(Expr::FnDef(def)) => {
            let params = numbers(def.params().map(|param| param.unwrap().node()));
            assert_eq!(params, told(FN_DEF_PARAM, FN_DEF_PARAM_COUNT));
        }
        Some(Expr::Block(block) | Expr::ComptimeBlock(block)) => {
            let count = block.statements().count();
            assert_eq!(count, told(BLOCK_STATEMENT, BLOCK_STATEMENT_COUNT).len());
        }
        _ => {}
    }
}

/// Where a script is wrong the views have errors, at the places of the Error nodes.
#[test]
fn errors_have_spans() {
    let tree = plank::parse("const a = b + ; const = 1; const c = d.; const e = ((;").unwrap();
    let mut seen = Vec::new();
    for def in tree.as_file().iter_defs() {
        match def {
            TopLevelDef::Const(decl) => {
                seen.push((tree.text(decl.span()), Shape(&tree).expr(decl.assign)));
            }
            TopLevelDef::Error { span } => seen.push((tree.text(span), "no view".to_string())),
            other => panic!("{other:?}"),
        }
    }
    let wanted = [
        ("const a = b + ;", "(+ b error)"),
        ("const = 1;", "no view"),
        ("const c = d.;", "error"),
        ("const e = ((;", "error"),
    ];
    assert_eq!(seen, wanted.map(|(text, shape)| (text, shape.to_string())));
}

/// As many statements as a text may have: iterators follow links, so that all are gone through at once.
#[test]
fn long_lists_are_gone_through() {
    let statements = 32_760;
    let tree = plank::parse(&format!("init {{{}}}", "a;".repeat(statements))).unwrap();
    let Some(TopLevelDef::Init(init)) = tree.as_file().iter_defs().next() else {
        panic!("an init block");
    };
    let names =
        init.body().statements().filter(|it| matches!(it, Statement::Expr(Expr::Ident { .. })));
    assert_eq!(names.count(), statements);
}
