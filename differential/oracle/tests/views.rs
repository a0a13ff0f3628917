//! What the reference's views tell, by the library's numbers.

use oracle::NODE_WIDTH;
use oracle::views::{By, Change, LISTS, NODE_AT_TOKEN, NUMBERS, SPANS, Tree};
use std::collections::HashSet;

const NUMBERS_OF_THE_LIBRARY: &str = include_str!("../../../crates/accessors/src/number.rt");

fn number(tree: &mut Tree, accessor: &str, node: u32) -> Option<u32> {
    let one = NUMBERS.iter().find(|one| one.name == accessor).expect("an accessor");
    (one.told)(&tree.node(node)).answer
}

#[test]
fn every_accessor_of_the_library_is_there_once() {
    let numbers = NUMBERS.iter().map(|one| one.number).chain(SPANS.iter().map(|one| one.number));
    let numbers = numbers.chain([NODE_AT_TOKEN]);
    let all: Vec<u32> =
        numbers.chain(LISTS.iter().flat_map(|list| [list.number, list.count])).collect();
    assert_eq!(all.iter().collect::<HashSet<_>>().len(), all.len());
    assert_eq!(all.len(), NUMBERS_OF_THE_LIBRARY.matches("pub const").count());
}

#[test]
fn a_constant_has_its_name_and_value() {
    let mut tree = Tree::read("const a = 1;").expect("a tree");
    assert_eq!(number(&mut tree, "CONST_DECL_NAME", 1), Some(2));
    assert_eq!(number(&mut tree, "CONST_DECL_TYPE", 1), None);
    assert_eq!(number(&mut tree, "CONST_DECL_ASSIGN", 1), Some(3));
    assert_eq!(number(&mut tree, "CONST_DECL_NAME", 0), None);
}

#[test]
fn brackets_are_peeled() {
    let mut tree = Tree::read("const a = ((b));").expect("a tree");
    let named = (0..tree.count()).find(|node| number(&mut tree, "IDENT", *node) == Some(8));
    assert_eq!(number(&mut tree, "CONST_DECL_ASSIGN", 1), named);
}

#[test]
fn a_constant_without_a_value_has_no_view_but_a_name() {
    let tree = Tree::read("const a = 1;").expect("a tree");
    let mut tree = tree.changed(&[Change::Next { node: 2, next: 0 }]).expect("no ring");
    let name = NUMBERS.iter().find(|one| one.name == "CONST_DECL_NAME").expect("an accessor");
    let told = (name.told)(&tree.node(1));
    assert_eq!((told.answer, told.by), (Some(2), By::Child));
    assert_eq!(number(&mut tree, "CONST_DECL_ASSIGN", 1), None);
}

#[test]
fn a_token_has_an_innermost_node_and_a_declaration() {
    let mut tree = Tree::read("const a = (b); run { c; }").expect("a tree");
    let named = |tree: &mut Tree, token| {
        (0..tree.count()).find(|node| number(tree, "IDENT", *node) == Some(token)).expect("a name")
    };
    let (a, b, c) = (named(&mut tree, 2), named(&mut tree, 7), named(&mut tree, 15));
    assert_eq!((tree.innermost(0, 2), tree.innermost(0, 7)), (Some(a), Some(b)));
    assert_eq!((tree.innermost(0, 3), tree.innermost(0, 100)), (Some(1), None));
    assert_eq!((tree.innermost(c, 15), tree.innermost(a, 15)), (Some(c), None));
    assert_eq!(number(&mut tree, "PARENT", a), Some(1));
    assert_eq!(number(&mut tree, "PARENT", 0), None);
    assert_eq!(number(&mut tree, "ENCLOSING_DECLARATION", b), Some(1));
    let run = number(&mut tree, "ENCLOSING_DECLARATION", c).expect("a declaration");
    assert_eq!(number(&mut tree, "PARENT", run), Some(0));
    assert_eq!(number(&mut tree, "ENCLOSING_DECLARATION", 0), None);
}

#[test]
fn a_ring_of_brackets_is_left_out() {
    let tree = Tree::read("const a = (b);").expect("a tree");
    let mut kinds = (0..tree.count())
        .filter(|node| tree.words().nodes[NODE_WIDTH * *node as usize] >> 26 == 17);
    let paren = kinds.next().expect("a bracket");
    assert!(tree.changed(&[Change::Child { node: paren, child: paren }]).is_none());
}
