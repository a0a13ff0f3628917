//! Refusals, and what wrong use is answered with.

#[path = "../examples/constants.rs"]
#[allow(dead_code)]
mod constants;

use constants::Shape;
use plank::{
    Altered, ConcreteSyntaxTree, Lexed, NODE_WIDTH, Refusal, accessor,
    ast::{BlockExpr, Expr, Statement, TopLevelDef},
    cst::{BytesId, NodeIdx, NodeView, NumLitId, StrId},
    lexer::{SourceByteOffset, TokenIdx},
    raw,
};

/// No word of a small tree.
const FILL: u32 = 0xa5a5_a5a5;

/// `raw::read` of `const a = 1;`, which has 9 tokens, 4 nodes and 2 value words, into slices full
/// of `FILL`.
fn read(lengths: [usize; 4]) -> (Result<raw::Counts, Refusal>, [Vec<u32>; 4]) {
    let [mut tokens, mut nodes, mut values, mut reports] = lengths.map(|length| vec![FILL; length]);
    let answer = raw::read(b"const a = 1;", &mut tokens, &mut nodes, &mut values, &mut reports);
    (answer, [tokens, nodes, values, reports])
}

#[test]
fn slices_of_just_enough_words_are_written() {
    let (answer, words) = read([9, 24, 2, 0]);
    assert_eq!(answer, Ok(raw::Counts { tokens: 9, nodes: 4, values: 2, reports: 0 }));
    assert!(words.iter().flatten().all(|word| *word != FILL));
    let (_, longer) = read([12, 30, 3, 5]);
    for (just, longer) in words.iter().zip(&longer) {
        assert_eq!(longer[..just.len()], just[..]);
        assert!(longer[just.len()..].iter().all(|word| *word == 0));
    }
}

#[test]
fn short_slices_are_refused_and_left_0() {
    let needed = 9;
    let token = TokenIdx::new;
    for (lengths, refusal) in [
        ([8, 24, 2, 0], Refusal::TokensDontFit { needed }),
        ([0, 0, 0, 0], Refusal::TokensDontFit { needed }),
        ([9, 23, 2, 0], Refusal::NodesDontFit { token: token(7) }),
        ([9, 5, 2, 0], Refusal::NodesDontFit { token: token(0) }),
        ([9, 24, 1, 0], Refusal::ValuesDontFit { token: token(7) }),
    ] {
        let (answer, words) = read(lengths);
        assert_eq!(answer, Err(refusal), "{lengths:?}");
        assert!(words.iter().flatten().all(|word| *word == 0));
    }
    let mut nodes = [FILL; NODE_WIDTH];
    let answer = raw::read(b"a", &mut [0; 2], &mut nodes, &mut [], &mut []);
    assert_eq!(answer, Err(Refusal::ReportsDontFit { token: token(0) }));
    assert_eq!(nodes, [0; NODE_WIDTH]);
    let mut tokens = [FILL; 8];
    assert_eq!(raw::lex(b"const a = 1;", &mut tokens), Err(Refusal::TokensDontFit { needed }));
    assert_eq!(tokens, [0; 8]);
}

#[test]
fn text_that_is_not_utf8_is_refused_by_the_way_it_is_not() {
    let offset = SourceByteOffset::new(2);
    let cases: [(&[u8], Refusal, u32, &str); 3] = [
        (
            b"a \x80 b",
            Refusal::NotUtf8Start { offset },
            1,
            "refused 1: not UTF-8: no character starts at byte 2",
        ),
        (
            b"a \xe2\x82b",
            Refusal::NotUtf8Later { offset },
            9,
            "refused 9: not UTF-8: a character is broken at byte 2",
        ),
        (
            b"a \xe2\x82",
            Refusal::NotUtf8Cut { offset },
            10,
            "refused 10: cut off inside a character at byte 2",
        ),
    ];
    for (text, refusal, number, sentence) in cases {
        assert_eq!(plank::read(text), Err(refusal));
        assert_eq!(Lexed::lex(text), Err(refusal));
        assert_eq!((refusal.number(), refusal.place()), (number, 2));
        assert_eq!(refusal.to_string(), sentence);
        assert!(refusal.is_not_utf8());
    }
    assert!(!Refusal::TooLong.is_not_utf8());
}

fn tree() -> ConcreteSyntaxTree {
    plank::parse("const a = 1;").unwrap()
}

// The words of a node by their places.
const HEAD: usize = 0;
const NEXT: usize = 3;
const CHILD: usize = 4;
const PARENT: usize = 5;

/// The words of that tree with one of a node's set to another.
fn altered(node: usize, place: usize, word: u32) -> Vec<u32> {
    let mut nodes = tree().node_words().to_vec();
    nodes[NODE_WIDTH * node + place] = word;
    nodes
}

fn from_nodes(nodes: Vec<u32>) -> Result<ConcreteSyntaxTree, Altered> {
    let tree = tree();
    ConcreteSyntaxTree::from_words(
        tree.source(),
        tree.lexed().words().to_vec(),
        nodes,
        tree.value_words().to_vec(),
        tree.report_words().to_vec(),
    )
}

#[test]
fn kept_words_make_the_same_tree() {
    assert_eq!(from_nodes(tree().node_words().to_vec()), Ok(tree()));
}

/// Refusal 8 at a node.
fn refused<T>(node: u32) -> Result<T, Refusal> {
    Err(Refusal::AlteredNodes { node: NodeIdx::new(node) })
}

#[test]
fn altered_words_are_refusal_8_of_views() {
    let nodes = tree().node_words().to_vec();
    let name = |nodes: &[u32], n| raw::number(accessor::CONST_DECL_NAME, nodes, n, 0);
    assert_eq!(name(&nodes, 1), Ok(Some(2)));
    assert_eq!(name(&nodes, 0), Ok(None));
    assert_eq!(name(&nodes, 4), refused(4));
    assert_eq!(name(&[], 0), refused(0));
    assert_eq!(name(&nodes[..2 * NODE_WIDTH - 1], 1), refused(1));
    // A kind above 49, a next sibling that isn't above its own node, a child past the words.
    assert_eq!(name(&altered(2, HEAD, 50 << 26), 1), refused(2));
    assert_eq!(name(&altered(2, NEXT, 2), 1), refused(2));
    assert_eq!(name(&altered(1, CHILD, 9), 1), refused(9));
    // A parent is told as it stands, and refused where it is looked at.
    let up = altered(2, PARENT, 9);
    assert_eq!(raw::number(accessor::PARENT, &up, 2, 0), Ok(Some(9)));
    assert_eq!(raw::number(accessor::ENCLOSING_DECLARATION, &up, 2, 0), refused(9));
    // What is not looked at doesn't matter.
    assert_eq!(name(&altered(3, HEAD, 63 << 26), 1), Ok(Some(2)));
    let kind = altered(1, HEAD, 50 << 26);
    assert_eq!(raw::span(accessor::CONST_DECL_SPAN, &kind, 1), refused(1));
    assert_eq!(raw::count(accessor::FILE_DEF_COUNT, &altered(1, NEXT, 1), 0), refused(1));
    // An accessor that there isn't, or one that tells something else.
    assert_eq!(raw::number(999, &nodes, 1, 0), Ok(None));
    assert_eq!(raw::number(accessor::CONST_DECL_SPAN, &nodes, 1, 0), Ok(None));
    assert_eq!(raw::number(accessor::FILE_DEF, &nodes, 0, u32::MAX), Ok(None));
}

#[test]
fn altered_words_make_no_tree() {
    let refusal = |node| Altered::Node(Refusal::AlteredNodes { node: NodeIdx::new(node) });
    for (nodes, error) in [
        (vec![], refusal(0)),
        (altered(2, HEAD, 50 << 26), refusal(2)),
        (altered(2, NEXT, 2), refusal(2)),
        (altered(1, CHILD, 9), refusal(9)),
        (altered(2, NEXT, u32::MAX), refusal(u32::MAX)),
        (altered(0, HEAD, 1 << 26), Altered::NoFile),
        (altered(3, HEAD, 15 << 26 | 25), Altered::Operator(NodeIdx::new(3))),
        (altered(1, CHILD, 3), Altered::Linked(NodeIdx::new(3))),
        (altered(2, CHILD, 2), Altered::Linked(NodeIdx::new(2))),
        (altered(3, PARENT, 2), Altered::Parent(NodeIdx::new(3))),
        (altered(0, PARENT, 1), Altered::Parent(NodeIdx::new(0))),
        (tree().node_words()[..4 * NODE_WIDTH - 1].to_vec(), Altered::LeftOver),
    ] {
        assert_eq!(from_nodes(nodes.clone()), Err(error), "{nodes:?}");
        assert_ne!(error.to_string(), "");
    }
    let words = |tokens: Vec<u32>, reports: Vec<u32>| {
        let nodes = tree().node_words().to_vec();
        ConcreteSyntaxTree::from_words("const a = 1;", tokens, nodes, vec![], reports)
    };
    assert_eq!(words(vec![0, 82 << 25], vec![]), Err(Altered::Token(TokenIdx::new(1))));
    assert_eq!(words(vec![], vec![17 << 26, 0, 0]), Err(Altered::Report(0)));
    assert_eq!(words(vec![], vec![1 << 26 | 6, 0, 0]), Err(Altered::Report(0)));
    assert_eq!(words(vec![], vec![0]), Err(Altered::LeftOver));
}

/// Words that are no text's own: every view answers all the same.
#[test]
fn any_words_that_link_a_tree_can_be_viewed() {
    let head = |kind: u32| kind << 26;
    for kind in 0..50 {
        for inner in 0..50 {
            #[rustfmt::skip]
            let nodes = vec![
                0, 0, 9, 0, 1, 0,
                head(kind) | 1, 0, 9, 0, 2, 0,
                head(inner), 3, 2, 3, 0, 1,
                head(9), 7, 7, 0, 0, 1,
            ];
            let tree = from_nodes(nodes).unwrap();
            walk(&tree);
        }
    }
}

fn walk(tree: &ConcreteSyntaxTree) {
    for n in 0..tree.node_count() {
        let view = NodeView::new(tree, NodeIdx::new(n)).unwrap();
        // `Debug` asks for all fields, `Shape` for all parts.
        assert_ne!(format!("{:?}", TopLevelDef::new(view)), "");
        assert_ne!(format!("{:?}", Statement::new(view)), "");
        if let Some(expr) = Expr::new(view) {
            assert_ne!(Shape(tree).expr(expr), "");
        }
        if let Some(block) = BlockExpr::new(view) {
            assert_ne!(Shape(tree).block(block), "");
        }
        let parent = view.parent().map(NodeView::idx);
        assert_eq!(parent, view.ancestors().next().map(NodeView::idx));
        assert_eq!(parent.is_none(), n == 0);
        assert_eq!(view.ancestors().last().is_none(), n == 0);
        assert_eq!(view.enclosing_declaration().is_none(), n == 0);
        let (start, end) = (view.span().start, view.span().end);
        assert_eq!(view.node_at_token(start).is_some(), start < end);
        assert!(view.node_at_token(end).is_none());
    }
}

/// Nodes that the file doesn't reach, each the other's child: going up and down ends.
#[test]
fn a_ring_that_the_file_does_not_reach_can_be_viewed() {
    let head = 17 << 26;
    let nodes = vec![0, 0, 9, 0, 0, 0, head, 0, 9, 0, 2, 2, head, 0, 9, 0, 1, 1];
    let tree = from_nodes(nodes).unwrap();
    let view = NodeView::new(&tree, NodeIdx::new(1)).unwrap();
    assert_eq!(view.ancestors().count(), 3);
    assert!(view.enclosing_declaration().is_none());
    assert!(view.node_at_token(TokenIdx::new(0)).is_none());
}

/// A node that nobody links, and its next sibling, which is linked and nobody's child either.
#[test]
fn a_node_that_is_nobodys_child_counts_as_the_files() {
    let head = 17 << 26;
    let nodes = vec![0, 0, 9, 0, 0, 0, head, 0, 9, 2, 0, 0, head, 0, 9, 0, 0, 0];
    let tree = from_nodes(nodes).unwrap();
    for idx in [1, 2].map(NodeIdx::new) {
        let view = NodeView::new(&tree, idx).unwrap();
        assert_eq!(view.parent().map(NodeView::idx), Some(NodeIdx::ZERO));
        assert_eq!(view.enclosing_declaration().map(NodeView::idx), Some(idx));
    }
}

#[test]
fn numbers_past_the_words_are_answered() {
    let tree = tree();
    let past = NodeIdx::new(4);
    assert_eq!(NodeView::new(&tree, past).err(), Some(Refusal::AlteredNodes { node: past }));
    assert_eq!(tree.node(past), None);
    assert_eq!(tree.lexed().get(TokenIdx::new(9)), None);
    assert_eq!(tree.lexed().token_src_span(TokenIdx::new(u32::MAX)), None);
    assert_eq!(tree.name(StrId::new(9)), "");
    assert_eq!(tree.num_lit_limbs(NumLitId::new(0)), Some(&[1][..]));
    assert_eq!(tree.num_lit_limbs(NumLitId::new(1)), None);
    assert_eq!(tree.num_lit_limbs(NumLitId::new(2)), None);
    assert_eq!(tree.bytes(BytesId::new(0)), None);
}
