//! The innermost node at a token: the library goes down by links, the reference's tree is asked
//! which of the nodes that cover the token has the most others above it.

use crate::{
    library::{NodeWords, Seen},
    views::{Fault, check::Difference, tally::Tally},
};
use oracle::{
    NODE_WIDTH,
    views::{By, NODE_AT_TOKEN, Tree},
};

/// So many tokens of a tree are asked for, and so many of its nodes are gone down from.
const MOST: u32 = 60;

pub fn first_difference_at_tokens(
    tree: &Tree,
    fault: Option<Fault>,
    tally: &mut Tally,
) -> Option<Difference> {
    let words = NodeWords::new(&tree.words().nodes);
    let end = tree.words().nodes[2];
    let step = |count: u32| (count / MOST + 1) as usize;
    let tokens = (0..end).step_by(step(end)).chain([end, u32::MAX]).map(|token| (0, token));
    let edges = (0..tree.count()).step_by(step(tree.count())).flat_map(|node| {
        let at = NODE_WIDTH * node as usize;
        let (first, end) = (tree.words().nodes[at + 1], tree.words().nodes[at + 2]);
        [(node, first), (node, end.wrapping_sub(1)), (node, end)]
    });
    let mut first_found = None;
    for (node, token) in tokens.chain(edges) {
        let mut answer = tree.innermost(node, token);
        if let Some(fault) = fault {
            fault.plant_in_number("NODE_AT_TOKEN", &mut answer);
        }
        let expected = Seen::of(answer);
        let found = words.view(NODE_AT_TOKEN, node, token);
        tally.add("NODE_AT_TOKEN", By::View, answer.is_some(), expected == found);
        if expected != found && first_found.is_none() {
            first_found = Some(Difference {
                accessor: format!("NODE_AT_TOKEN {token}"),
                node,
                expected: format!("{expected:?}"),
                found: format!("{found:?}"),
            });
        }
    }
    first_found
}
