//! What the reference's views tell of every node of a tree, as the numbers of document 01.

mod changes;
mod family;
mod node;
mod parents;
mod table;

/// The numbers of the accessors, as the library has them.
#[path = "../../../crates/accessors/src/number.rt"]
mod number;

pub use changes::Change;
pub use node::{By, Node, Told};
pub use number::NODE_AT_TOKEN;
pub use table::{LISTS, List, NUMBERS, One, SPANS};

use crate::{
    cst::{ConcreteSyntaxTree, NodeIdx, NodeKind, NodeView, NumLitId},
    run::read_tree,
    words::{NODE_WIDTH, Words, parents_of},
};
use parents::Parents;
use plank_core::Idx;
use plank_session::{BytesId, StrId};
use std::{collections::HashMap, ops::RangeInclusive};

/// A tree of the reference, and its words.
#[derive(Clone)]
pub struct Tree {
    /// With the hand-made parents behind the tree's own nodes.
    cst: ConcreteSyntaxTree,
    parents: Parents,
    /// The parent of each node, by the links that were read.
    above: Vec<u32>,
    words: Words,
    names: HashMap<StrId, u32>,
    numbers: HashMap<NumLitId, u32>,
    strings: HashMap<BytesId, u32>,
    /// Literals, names and `Self`, by kind and tokens.
    leaves: HashMap<[u32; 3], u32>,
}

/// Of BoolLiteral to BuiltinName the reference's views have no node.
const LEAF_KINDS: RangeInclusive<u32> = 32..=37;

impl Tree {
    /// None where the reference panics or the text is too deep.
    pub fn read(text: &str) -> Option<Tree> {
        let (mut cst, words) = read_tree(text)?;
        let above = parents_of(&cst);
        let parents = Parents::add_to(&mut cst);
        let mut tree = Tree {
            cst,
            parents,
            above,
            words,
            names: HashMap::new(),
            numbers: HashMap::new(),
            strings: HashMap::new(),
            leaves: HashMap::new(),
        };
        tree.note_payloads();
        Some(tree)
    }

    pub fn words(&self) -> &Words {
        &self.words
    }

    pub fn count(&self) -> u32 {
        (self.words.nodes.len() / NODE_WIDTH) as u32
    }

    /// A node, which the hand-made parents have for a child from now on.
    pub fn node(&mut self, number: u32) -> Node<'_> {
        let place = NodeIdx::new(number);
        self.parents.adopt(&mut self.cst, place);
        Node::new(self, NodeView::new(&self.cst, place))
    }

    /// Which payload stands for which name and value, and where the leaves are.
    fn note_payloads(&mut self) {
        self.leaves.clear();
        for (number, (node, words)) in
            self.cst.nodes.iter().zip(self.words.nodes.chunks(NODE_WIDTH)).enumerate()
        {
            let payload = words[0] & 0x3ff_ffff;
            let before = match node.kind {
                NodeKind::Identifier { ident }
                | NodeKind::BuiltinName { ident }
                | NodeKind::ParamAnyType { ident } => self.names.insert(ident, payload),
                NodeKind::NumLiteral { id } => self.numbers.insert(id, payload),
                NodeKind::StringLiteral { value } => self.strings.insert(value, payload),
                _ => None,
            };
            assert!(before.is_none_or(|before| before == payload), "two payloads for one thing");
            if LEAF_KINDS.contains(&(words[0] >> 26)) {
                let before =
                    self.leaves.insert([words[0] >> 26, words[1], words[2]], number as u32);
                assert!(before.is_none(), "two leaves of one kind with the same tokens");
            }
        }
    }
}
