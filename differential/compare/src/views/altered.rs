//! Node words that were altered: refusal 8 by document 01, written out once more.

use crate::{
    library::{NodeWords, Seen},
    views::{Fault, changed::rng_of, check::Difference, tally::Tally},
};
use generate::Rng;
use oracle::NODE_WIDTH;
use oracle::views::{LISTS, NODE_AT_TOKEN, NUMBERS, SPANS, Tree};
use std::collections::HashSet;

/// So many altered copies are made of each tree's words.
const COPIES: u64 = 3;

/// Nodes are looked at up to this number, and some of the others.
const MOST_NODES: u32 = 40;

pub fn first_difference_altered(
    tree: &Tree,
    fault: Option<Fault>,
    tally: &mut Tally,
) -> Option<Difference> {
    let words = &tree.words().nodes;
    let mut first = None;
    for copy in 0..COPIES {
        let mut rng = rng_of(tree, copy);
        let altered = alter(&mut rng, words);
        let difference = difference_in(&altered, fault, tally, &mut rng);
        first = first.or(difference);
    }
    first
}

/// One to four words are changed, and at times the last words are missing.
fn alter(rng: &mut Rng, words: &[u32]) -> Vec<u32> {
    let mut altered = words.to_vec();
    let nodes = words.len() / NODE_WIDTH;
    for _ in 0..1 + rng.below(4) {
        let place = rng.below(altered.len());
        altered[place] = match rng.below(4) {
            0 => rng.below(nodes + 2) as u32,
            1 => (rng.below(64) as u32) << 26 | rng.below(1 << 20) as u32,
            2 => altered[place] ^ 1 << rng.below(32),
            _ => u32::MAX - rng.below(3) as u32,
        };
    }
    altered.truncate(words.len() - rng.below(NODE_WIDTH + 1));
    altered
}

fn difference_in(
    words: &[u32],
    fault: Option<Fault>,
    tally: &mut Tally,
    rng: &mut Rng,
) -> Option<Difference> {
    let library = NodeWords::new(words);
    let count = (words.len() / NODE_WIDTH) as u32;
    let some = (0..count.min(MOST_NODES)).chain([count, count + 1, u32::MAX]);
    let drawn: Vec<u32> = (0..8).map(|_| rng.below(count as usize + 1) as u32).collect();
    let mut first = None;
    let mut compare = |name: &str, node: u32, mut expected: Seen, found: Seen| {
        if let (Some(Fault::Place), Seen::Refused(place)) = (fault, &mut expected) {
            *place = place.wrapping_add(1);
        }
        let is_same = expected == found;
        tally.add_altered(&expected, is_same);
        if !is_same && first.is_none() {
            let (expected, found) = (format!("{expected:?}"), format!("{found:?} in {words:?}"));
            first =
                Some(Difference { accessor: format!("{name}, altered"), node, expected, found });
        }
    };
    let number =
        |name: &str| NUMBERS.iter().find(|one| one.name == name).expect("an accessor").number;
    let (kind, ident, children, span) =
        (number("KIND"), number("IDENT"), &LISTS[0], SPANS[0].number);
    for node in some.chain(drawn) {
        let found = library.view(kind, node, 0);
        compare("KIND", node, seen(look(words, node).map(|node| Some(node.kind()))), found);
        let found = library.view(ident, node, 0);
        compare("IDENT", node, seen(look(words, node).map(|node| node.name())), found);
        let found = library.view_span(span, node, 2);
        let expected = seen(look(words, node).map(|_| Some(0)));
        compare("SPAN", node, expected, found.seen);
        let found = library.view_count(children.count, node);
        compare("CHILD_COUNT", node, seen(count_of(words, node).map(Some)), found);
        for i in [0, 1, 2, 5, u32::MAX] {
            let found = library.view(children.number, node, i);
            compare("CHILD", node, seen(child(words, node, i)), found);
        }
        let found = library.view(number("PARENT"), node, 0);
        compare("PARENT", node, seen(parent(words, node)), found);
        let found = library.view(number("ENCLOSING_DECLARATION"), node, 0);
        compare("ENCLOSING_DECLARATION", node, seen(declaration(words, node)), found);
        for token in [0, 2, 7, node, u32::MAX] {
            let found = library.view(NODE_AT_TOKEN, node, token);
            compare("NODE_AT_TOKEN", node, seen(node_at_token(words, node, token)), found);
        }
        // Where any accessor refuses, it is at a node that a look refuses.
        for which in (0..224).filter(|which| which % 8 == node % 8) {
            if let Seen::Refused(place) = library.view(which, node, node % 4) {
                compare(
                    "any",
                    node,
                    seen(look(words, place).map(|_| Some(place))),
                    Seen::Refused(place),
                );
            }
        }
    }
    first
}

struct Looked<'a>(&'a [u32]);

impl Looked<'_> {
    fn kind(&self) -> u32 {
        self.0[0] >> 26
    }

    fn name(&self) -> Option<u32> {
        (self.kind() == 36).then_some(self.0[0] & 0x3ff_ffff)
    }

    fn next(&self) -> u32 {
        self.0[3]
    }

    fn covers(&self, token: u32) -> bool {
        (self.0[1]..self.0[2]).contains(&token)
    }
}

/// "node number past the words, kind above 49, or next sibling other than 0 not above its own node"
fn look(words: &[u32], node: u32) -> Result<Looked<'_>, u32> {
    let start = NODE_WIDTH * node as usize;
    let found = words.get(start..start + NODE_WIDTH).map(Looked).ok_or(node)?;
    let falls = found.next() != 0 && found.next() <= node;
    if found.kind() > 49 || falls { Err(node) } else { Ok(found) }
}

fn child(words: &[u32], node: u32, i: u32) -> Result<Option<u32>, u32> {
    let mut at = look(words, node)?.0[4];
    for _ in 0..i {
        if at == 0 {
            return Ok(None);
        }
        at = look(words, at)?.next();
    }
    if at == 0 {
        return Ok(None);
    }
    look(words, at).map(|_| Some(at))
}

fn count_of(words: &[u32], node: u32) -> Result<u32, u32> {
    let mut at = look(words, node)?.0[4];
    let mut count = 0;
    while at != 0 {
        at = look(words, at)?.next();
        count += 1;
    }
    Ok(count)
}

fn parent(words: &[u32], node: u32) -> Result<Option<u32>, u32> {
    let looked = look(words, node)?;
    Ok((node != 0).then_some(looked.0[5]))
}

/// None in a ring.
fn declaration(words: &[u32], node: u32) -> Result<Option<u32>, u32> {
    let mut passed = HashSet::new();
    let mut at = node;
    while passed.insert(at) {
        match parent(words, at)? {
            None => return Ok(None),
            Some(0) => return Ok(Some(at)),
            Some(above) => at = above,
        }
    }
    Ok(None)
}

/// None in a ring.
fn node_at_token(words: &[u32], node: u32, token: u32) -> Result<Option<u32>, u32> {
    let outermost = look(words, node)?;
    if !outermost.covers(token) {
        return Ok(None);
    }
    let mut passed = HashSet::new();
    let (mut found, mut at) = (node, outermost.0[4]);
    while at != 0 {
        if !passed.insert(at) {
            return Ok(None);
        }
        let looked = look(words, at)?;
        if looked.covers(token) {
            (found, at) = (at, looked.0[4]);
        } else {
            at = looked.next();
        }
    }
    Ok(Some(found))
}

fn seen(told: Result<Option<u32>, u32>) -> Seen {
    match told {
        Ok(answer) => Seen::of(answer),
        Err(place) => Seen::Refused(place),
    }
}
