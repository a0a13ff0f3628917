//! Planted faults in the reference's answers, to show that the comparison can fail.

#[derive(Debug, Clone, Copy, PartialEq, Eq)]
pub enum Fault {
    /// A right operand is the node after it.
    Node,
    /// A `let` is never mutable.
    Flag,
    /// The name of a member is that of the token after.
    Name,
    /// The name of a constant ends one token later.
    Span,
    /// The callee counts as an argument.
    Count,
    /// The last statement of a block is none.
    Item,
    /// Every node's parent is the file.
    Parent,
    /// A token is in the file alone.
    Token,
    /// Altered words are refused one node later.
    Place,
}

pub const FAULTS: [(&str, Fault); 9] = [
    ("node", Fault::Node),
    ("flag", Fault::Flag),
    ("name", Fault::Name),
    ("span", Fault::Span),
    ("count", Fault::Count),
    ("item", Fault::Item),
    ("parent", Fault::Parent),
    ("token", Fault::Token),
    ("place", Fault::Place),
];

impl Fault {
    pub fn plant_in_number(self, accessor: &str, told: &mut Option<u32>) {
        match (self, accessor, told) {
            (Fault::Node, "BINARY_EXPR_RHS", Some(node)) => *node += 1,
            (Fault::Flag, "LET_STMT_MUTABLE", Some(flag)) => *flag = 0,
            (Fault::Name, "MEMBER_EXPR_MEMBER", Some(token)) => *token += 1,
            (Fault::Parent, "PARENT", Some(node)) => *node = 0,
            (Fault::Token, "NODE_AT_TOKEN", Some(node)) => *node = 0,
            _ => {}
        }
    }

    pub fn plant_in_span(self, accessor: &str, told: &mut Option<[u32; 2]>) {
        if let (Fault::Span, "CONST_DECL_NAME_SPAN", Some([_, end])) = (self, accessor, told) {
            *end += 1;
        }
    }

    pub fn plant_in_list(self, accessor: &str, told: &mut Option<Vec<Option<u32>>>) {
        match (self, accessor, told) {
            (Fault::Count, "CALL_EXPR_ARG", Some(items)) => items.push(None),
            (Fault::Item, "BLOCK_STATEMENT", Some(items)) => {
                if let Some(last) = items.last_mut() {
                    *last = None;
                }
            }
            _ => {}
        }
    }
}

#[cfg(test)]
mod tests {
    use super::*;
    use oracle::views::{LISTS, NUMBERS, SPANS, Tree};

    /// How many answers of the accessors are changed.
    fn changed(tree: &mut Tree, fault: Fault) -> usize {
        let mut changed = 0;
        for number in 0..tree.count() {
            let node = tree.node(number);
            for one in NUMBERS {
                let told = (one.told)(&node).answer;
                let mut planted = told;
                fault.plant_in_number(one.name, &mut planted);
                changed += usize::from(planted != told);
            }
            for one in SPANS {
                let told = (one.told)(&node).answer;
                let mut planted = told;
                fault.plant_in_span(one.name, &mut planted);
                changed += usize::from(planted != told);
            }
            for list in LISTS {
                let told = (list.told)(&node).answer;
                let mut planted = told.clone();
                fault.plant_in_list(list.name, &mut planted);
                changed += usize::from(planted != told);
            }
        }
        changed
    }

    #[test]
    fn each_fault_changes_something() {
        let text = "const a = b.c + d(e); init { let mut f = 1; }";
        let mut tree = Tree::read(text).expect("a tree");
        for (name, fault) in FAULTS {
            // One is planted in refusals, which no tree has, and one where tokens are asked for.
            let is_seen = changed(&mut tree, fault) > 0;
            assert_eq!(is_seen, !matches!(fault, Fault::Place | Fault::Token), "{name}");
        }
        let mut told = tree.innermost(0, 2);
        Fault::Token.plant_in_number("NODE_AT_TOKEN", &mut told);
        assert_ne!(told, tree.innermost(0, 2));
    }
}
