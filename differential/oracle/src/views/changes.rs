//! Trees that the parser doesn't make: kinds and links are changed in the reference's tree and in the
//! words alike.

use crate::{
    cst::{NodeIdx, NodeKind},
    lexer::TokenIdx,
    views::Tree,
    words::NODE_WIDTH,
};
use plank_core::{Idx, Span};

/// A change of one node. Siblings still rise and kinds are kinds, so that nothing is refused.
#[derive(Debug, Clone, Copy, PartialEq, Eq)]
pub enum Change {
    /// The kind of another node, with its payload.
    Kind { node: u32, from: u32 },
    /// Another first child; 0 for none.
    Child { node: u32, child: u32 },
    /// Another next sibling, above the node; 0 for none.
    Next { node: u32, next: u32 },
}

impl Tree {
    /// With these changes, and tokens of its own for each node, so that they tell which it is. None
    /// where brackets come to stand in a ring, on which the reference panics.
    pub fn changed(&self, changes: &[Change]) -> Option<Tree> {
        let mut tree = self.clone();
        for change in changes {
            tree.change(*change);
        }
        for number in 0..tree.count() {
            let tokens = [2 * number, 2 * number + 1];
            tree.cst.nodes[NodeIdx::new(number)].tokens =
                Span::new(TokenIdx::new(tokens[0]), TokenIdx::new(tokens[1]));
            tree.node_words(number)[1..3].copy_from_slice(&tokens);
        }
        tree.note_payloads();
        (!tree.has_ring()).then_some(tree)
    }

    fn change(&mut self, change: Change) {
        let link = |number: u32| (number != 0).then(|| NodeIdx::new(number));
        match change {
            Change::Kind { node, from } => {
                self.cst.nodes[NodeIdx::new(node)].kind = self.cst.nodes[NodeIdx::new(from)].kind;
                self.node_words(node)[0] = self.node_words(from)[0];
            }
            Change::Child { node, child } => {
                self.cst.nodes[NodeIdx::new(node)].first_child = link(child);
                self.node_words(node)[4] = child;
            }
            Change::Next { node, next } => {
                self.cst.nodes[NodeIdx::new(node)].next_sibling = link(next);
                self.node_words(node)[3] = next;
            }
        }
    }

    fn node_words(&mut self, number: u32) -> &mut [u32] {
        &mut self.words.nodes[NODE_WIDTH * number as usize..][..NODE_WIDTH]
    }

    fn has_ring(&self) -> bool {
        let inner = |place: &NodeIdx| {
            let node = self.cst.nodes[*place];
            node.first_child.filter(|_| node.kind == NodeKind::ParenExpr)
        };
        let count = self.count();
        (0..count).any(|number| {
            let peeled = std::iter::successors(Some(NodeIdx::new(number)), inner);
            peeled.take(count as usize + 2).count() > count as usize + 1
        })
    }
}
