//! Where a node stands. The reference has no views of that, so its links tell.

use crate::{
    views::{Tree, node::Node},
    words::NODE_WIDTH,
};
use std::iter;

impl Tree {
    /// A node, its parent and so on, up to the file, by the links that were read.
    fn up(&self, node: u32) -> impl Iterator<Item = u32> {
        iter::successors(Some(node), |node| (*node != 0).then(|| self.above[*node as usize]))
    }

    /// Of a node and all below it, the one that covers a token and has the most nodes above it.
    pub fn innermost(&self, node: u32, token: u32) -> Option<u32> {
        let covers = |number: &u32| {
            let words = &self.words.nodes[NODE_WIDTH * *number as usize..];
            words[1] <= token && token < words[2]
        };
        let below = |number: &u32| self.up(*number).any(|above| above == node);
        let all = (0..self.count()).filter(covers).filter(below);
        all.max_by_key(|number| self.up(*number).count())
    }
}

impl Node<'_> {
    /// The file has none.
    pub fn parent(&self) -> Option<u32> {
        self.tree().up(self.number()).nth(1)
    }

    /// The node below the file that it is, or that it stands below.
    pub fn declaration(&self) -> Option<u32> {
        self.tree().up(self.number()).filter(|above| *above != 0).last()
    }
}
