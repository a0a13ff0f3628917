//! One tree: every accessor on every node.

use crate::{
    library::{NodeWords, Seen, Spanned},
    views::{Fault, tally::Tally},
};
use oracle::views::{LISTS, NODE_AT_TOKEN, NUMBERS, Node, SPANS, Told, Tree};
use std::fmt;

/// An answer that isn't the reference's.
pub struct Difference {
    pub accessor: String,
    pub node: u32,
    pub expected: String,
    pub found: String,
}

impl fmt::Display for Difference {
    fn fmt(&self, f: &mut fmt::Formatter<'_>) -> fmt::Result {
        let Difference { accessor, node, expected, found } = self;
        writeln!(f, "  {accessor} of node {node}\n  expected {expected}\n  found    {found}")
    }
}

pub fn first_difference(
    tree: &mut Tree,
    fault: Option<Fault>,
    tally: &mut Tally,
) -> Option<Difference> {
    let words = NodeWords::new(&tree.words().nodes);
    let mut check = Check { words: &words, fault, tally, first: None };
    for number in 0..tree.count() {
        check.node(number, &tree.node(number));
    }
    check.nowhere(tree.count());
    let stayed_inside = words.is_kept();
    assert!(stayed_inside, "the node words were written to");
    check.first
}

struct Check<'a> {
    words: &'a NodeWords,
    fault: Option<Fault>,
    tally: &'a mut Tally,
    first: Option<Difference>,
}

/// An i that no list reaches.
const FAR: u32 = u32::MAX;

impl Check<'_> {
    fn node(&mut self, number: u32, node: &Node<'_>) {
        for one in NUMBERS {
            let Told { mut answer, by } = (one.told)(node);
            if let Some(fault) = self.fault {
                fault.plant_in_number(one.name, &mut answer);
            }
            // Which i is given doesn't matter.
            let found = self.words.view(one.number, number, number % 3);
            let expected = Seen::of(answer);
            self.tally.add(one.name, by, answer.is_some(), expected == found);
            self.keep(one.name, number, &expected, &found);
        }
        for one in SPANS {
            let Told { mut answer, by } = (one.told)(node);
            if let Some(fault) = self.fault {
                fault.plant_in_span(one.name, &mut answer);
            }
            let lent = ((number + one.number) % 5) as usize;
            let found = self.words.view_span(one.number, number, lent);
            let expected = Spanned::expected(answer, lent);
            self.tally.add(one.name, by, answer.is_some(), expected == found);
            self.keep(one.name, number, &expected, &found);
        }
        for list in LISTS {
            let Told { mut answer, by } = (list.told)(node);
            if let Some(fault) = self.fault {
                fault.plant_in_list(list.name, &mut answer);
            }
            let count = answer.as_ref().map(|items| items.len() as u32);
            let found = self.words.view_count(list.count, number);
            let expected = Seen::of(count);
            self.tally.add(list.count_name, by, count.is_some(), expected == found);
            self.keep(list.count_name, number, &expected, &found);
            let items = answer.unwrap_or_default();
            let last = items.len() as u32;
            let places = items.into_iter().zip(0..).chain([(None, last), (None, FAR)]);
            for (item, i) in places {
                let found = self.words.view(list.number, number, i);
                let expected = Seen::of(item);
                self.tally.add(list.name, by, item.is_some(), expected == found);
                self.keep(list.name, number, &expected, &found);
            }
        }
    }

    /// Numbers that name no accessor tell none, and so do those of another sort of answer; of nodes
    /// that aren't there every accessor is refused. Some numbers are tried on each tree.
    fn nowhere(&mut self, count: u32) {
        let of_numbers = |which: &u32| {
            NUMBERS.iter().any(|one| one.number == *which)
                || LISTS.iter().any(|list| list.number == *which)
                || *which == NODE_AT_TOKEN
        };
        let of_spans = |which: &u32| SPANS.iter().any(|one| one.number == *which);
        let of_counts = |which: &u32| LISTS.iter().any(|list| list.count == *which);
        let some = (0..300).filter(|which| which % 16 == count % 16);
        for which in some.chain([u32::MAX]) {
            for node in [0, count, u32::MAX] {
                let told = |is_there: bool| match (is_there, node) {
                    (false, _) => Some(Seen::None),
                    (true, 0) => None,
                    (true, place) => Some(Seen::Refused(place)),
                };
                let number = told(of_numbers(&which));
                let counted = told(of_counts(&which));
                let span = told(of_spans(&which));
                let found = [
                    (number, self.words.view(which, node, 0)),
                    (counted, self.words.view_count(which, node)),
                    (span, self.words.view_span(which, node, 0).seen),
                ];
                for (expected, found) in found {
                    let Some(expected) = expected else { continue };
                    self.tally.add_nowhere(expected == found);
                    self.keep(&format!("accessor {which}"), node, &expected, &found);
                }
            }
        }
    }

    fn keep<A: PartialEq + fmt::Debug>(
        &mut self,
        accessor: &str,
        node: u32,
        expected: &A,
        found: &A,
    ) {
        if expected != found && self.first.is_none() {
            self.first = Some(Difference {
                accessor: accessor.to_string(),
                node,
                expected: format!("{expected:?}"),
                found: format!("{found:?}"),
            });
        }
    }
}
