//! Planted faults in the reference's answers, to show that the comparison can fail.

use crate::{
    accents,
    read::answer::Answer,
    utf8::{CUT, NOT_ALLOWED},
};
use oracle::{End, NODE_WIDTH, Run, Step};

const BINARY_EXPR: u32 = 15;
const PAREN_EXPR: u32 = 17;
const OPERATOR: u32 = 44;
const CONST_DECL: u32 = 1;

#[derive(Debug, Clone, Copy, PartialEq, Eq)]
pub enum Fault {
    /// A ParenExpr has no child.
    Link,
    /// A node in brackets has their parent for its own.
    Parent,
    /// An Operator ends one token later.
    Span,
    /// A constant has no type.
    Flag,
    /// `-` is read as `+`.
    Operator,
    /// The limbs of a number come in the other order.
    Value,
    /// The first byte of a character that is not ASCII is missing from its string.
    Accent,
    /// A missing semicolon is reported where its span ends.
    Report,
    /// An unexpected token is reported as the end of the text.
    Detail,
    /// A value that doesn't fit is refused one token earlier.
    Place,
    /// What is too deep is refused one token later.
    Depth,
    /// A refusal of parsing leaves the tokens that were lexed.
    Kept,
    /// The counts of value words and reports are exchanged.
    Counts,
    /// A text that is cut inside a character is refused as one with a byte that isn't allowed.
    Cut,
}

pub const FAULTS: [(&str, Fault); 14] = [
    ("link", Fault::Link),
    ("parent", Fault::Parent),
    ("span", Fault::Span),
    ("flag", Fault::Flag),
    ("operator", Fault::Operator),
    ("value", Fault::Value),
    ("accent", Fault::Accent),
    ("report", Fault::Report),
    ("detail", Fault::Detail),
    ("place", Fault::Place),
    ("depth", Fault::Depth),
    ("kept", Fault::Kept),
    ("counts", Fault::Counts),
    ("cut", Fault::Cut),
];

impl Fault {
    /// What is done with a text where the reference has this fault.
    pub fn run(self, text: &str) -> Run {
        let mut run = match self {
            Fault::Accent => accents::run_with(text, without_first_byte),
            _ => accents::run(text),
        };
        self.plant(&mut run);
        run
    }

    fn plant(self, run: &mut Run) {
        match self {
            Fault::Place => {
                let values =
                    run.steps.iter_mut().filter(|taken| matches!(taken.step, Step::Value { .. }));
                values.for_each(|taken| taken.cursor -= 1);
            }
            Fault::Depth => run.cursor += u32::from(run.end == End::TooDeep),
            _ => {
                if let End::Read(words) = &mut run.end {
                    words.nodes.chunks_mut(NODE_WIDTH).for_each(|node| self.plant_in_node(node));
                    if self == Fault::Parent {
                        pass_brackets(&mut words.nodes);
                    }
                    words.reports.chunks_mut(3).for_each(|report| self.plant_in_report(report));
                    if self == Fault::Value {
                        turn_numbers(&mut words.values);
                    }
                }
            }
        }
    }

    /// The faults that show only in an answer.
    pub fn plant_in_answer(self, tokens: &[u32], answer: &mut Answer) {
        match (self, answer.number) {
            (Fault::Kept, 3 | 5..=7) => {
                let kept = answer.tokens.len().min(tokens.len());
                answer.tokens[..kept].copy_from_slice(&tokens[..kept]);
            }
            (Fault::Counts, 0) => {
                let last = answer.counts.len() - 1;
                answer.counts.swap(last - 1, last);
            }
            (Fault::Cut, CUT) => answer.number = NOT_ALLOWED,
            _ => {}
        }
    }

    fn plant_in_node(self, node: &mut [u32]) {
        match (self, node[0] >> 26) {
            (Fault::Link, PAREN_EXPR) => node[4] = 0,
            (Fault::Span, OPERATOR) => node[2] += 1,
            (Fault::Flag, CONST_DECL) => node[0] &= !1,
            (Fault::Operator, BINARY_EXPR) if node[0] & 0xff == 14 => node[0] -= 1,
            _ => {}
        }
    }

    fn plant_in_report(self, report: &mut [u32]) {
        match (self, report[0] >> 26) {
            (Fault::Report, 4) => report[1] = report[2],
            (Fault::Detail, 2) => report[0] = 2 << 26 | 81,
            _ => {}
        }
    }
}

fn without_first_byte(character: char) -> Vec<u8> {
    let mut bytes = character.to_string().into_bytes();
    if !character.is_ascii() {
        bytes.remove(0);
    }
    bytes
}

/// The parent's parent, where the parent is a ParenExpr.
fn pass_brackets(nodes: &mut [u32]) {
    let told = nodes.to_vec();
    for node in nodes.chunks_mut(NODE_WIDTH) {
        let parent = NODE_WIDTH * node[5] as usize;
        if told[parent] >> 26 == PAREN_EXPR {
            node[5] = told[parent + 5];
        }
    }
}

fn turn_numbers(values: &mut [u32]) {
    let mut at = 0;
    while at < values.len() {
        let (sort, count) = (values[at] >> 30, (values[at] & 0x3fff_ffff) as usize);
        let length = if sort == 1 { count } else { count.div_ceil(4) };
        let end = at + 1 + length;
        if sort == 1 {
            values[at + 1..end].reverse();
        }
        at = end;
    }
}

#[cfg(test)]
mod tests {
    use super::*;
    use crate::read::lengths::lent_for;

    /// Those to a reading with exactly enough words, and with none for values.
    fn answers(run: &Run) -> Vec<Answer> {
        let need = run.need();
        let fewer = oracle::Lengths { values: 0, ..need };
        let lent = [need, fewer].map(|rest| lent_for(run, rest));
        lent.into_iter().filter_map(|lent| Answer::expected(run, lent)).collect()
    }

    #[test]
    fn each_fault_changes_something() {
        let deep = format!("const a = {};", "(".repeat(256));
        for (name, fault) in FAULTS.into_iter().filter(|(_, fault)| *fault != Fault::Cut) {
            let text = match fault {
                Fault::Depth => deep.as_str(),
                _ => "const a: b = (c - 18446744073709551618 - \"é\"); init { d e } const f = ;",
            };
            let (run, planted) = (accents::run(text), fault.run(text));
            let plain = answers(&run);
            let mut changed = answers(&planted);
            changed.iter_mut().for_each(|answer| fault.plant_in_answer(&run.tokens, answer));
            assert!(changed != plain, "{name}");
        }
    }

    #[test]
    fn the_fault_of_a_cut_text() {
        let lent = lent_for(&oracle::run(""), oracle::run("").need());
        let refused = |text| Answer::unreadable(text, lent).expect("not UTF-8");
        let mut planted = refused(b"\xe2\x82");
        Fault::Cut.plant_in_answer(&[], &mut planted);
        assert_eq!(planted, refused(b"\xe2A"));
    }
}
