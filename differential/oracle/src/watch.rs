//! The steps of a reading that document 01 may refuse, as the reference takes them.
//!
//! The reference has no limits, so it is watched by what it asks of the stand-ins. The cursor
//! is the one index that is counted up with `+=`. A reading of `parse_block` is entered where
//! a block's node is made, and left where that node is closed: its second change, as the first
//! one gives it its first child. A reading of `try_parse_expr_min_bp` is entered
//!
//! - by `try_parse_expr`, which asks for the length of `expected` right before. It cuts
//!   `expected` right after, unless nothing was found;
//! - for an operand, right after the node of its operator is made. The next change of a
//!   UnaryExpr, and the second of a BinaryExpr (the first gives it its left operand), comes
//!   right after;
//!
//! and finds nothing where `match`, the last thing tried, is added to `expected`.

use crate::{
    cst::{Node, NodeIdx, NodeKind},
    lexer::{Token, TokenIdx},
    words::{number_words, string_words},
};
use hooks::Call;
use plank_core::Idx;
use std::{ops::Range, panic, panic::Location, sync::LazyLock};

/// "Entering the 257th is refusal 3."
const MOST_OPEN: usize = 256;

#[derive(Debug, Clone, Copy, PartialEq, Eq)]
pub enum Step {
    Node,
    Value { words: usize },
    Report,
}

/// A step, with the token number at the cursor.
#[derive(Debug, Clone, Copy, PartialEq, Eq)]
pub struct Taken {
    pub step: Step,
    pub cursor: u32,
}

/// What a reading is ended with that enters too deep.
pub struct TooDeep;

/// A reading that is open. Where a node is given, its last change left closes the reading.
struct Reading {
    node: Option<NodeIdx>,
    changes: u32,
}

#[derive(Default)]
pub struct Watch {
    pub cursor: u32,
    pub steps: Vec<Taken>,
    pub values: Vec<u32>,
    open: Vec<Reading>,
}

impl Watch {
    pub fn told(&mut self, call: Call<'_>) {
        match call {
            Call::Counted(index) => self.counted(index.downcast_ref()),
            Call::Indexed { place, item } => {
                if let Some(node) = item.downcast_ref() {
                    self.node_made(NodeIdx::new(place), node);
                }
            }
            Call::Changed(index) => self.changed(index.downcast_ref()),
            Call::Number(limbs) => self.value(number_words(limbs)),
            Call::Bytes(bytes) => self.value(string_words(bytes)),
            Call::Report => self.take(Step::Report),
            Call::Appended(item) => {
                if item.downcast_ref() == Some(&Token::Match) {
                    self.leave();
                }
            }
            Call::Length(place) if is_in_try_parse_expr(place) => self.enter(None, 0),
            Call::Cut(place) if is_in_try_parse_expr(place) => self.leave(),
            Call::Length(_) | Call::Cut(_) => {}
        }
    }

    fn counted(&mut self, index: Option<&TokenIdx>) {
        if let Some(cursor) = index {
            self.cursor = cursor.get();
        }
    }

    fn node_made(&mut self, idx: NodeIdx, node: &Node) {
        use NodeKind::{BinaryExpr, Block, ComptimeBlock, InitBlock, RunBlock, UnaryExpr};
        match node.kind {
            InitBlock | RunBlock | ComptimeBlock | Block => {
                self.enter(Some(idx), 2);
                self.take(Step::Node);
            }
            UnaryExpr(_) => {
                self.take(Step::Node);
                self.enter(Some(idx), 1);
            }
            BinaryExpr(_) => {
                self.take(Step::Node);
                self.enter(Some(idx), 2);
            }
            _ => self.take(Step::Node),
        }
    }

    fn changed(&mut self, index: Option<&NodeIdx>) {
        let Some(reading) = self.open.last_mut() else { return };
        if index.is_none() || reading.node.as_ref() != index {
            return;
        }
        reading.changes -= 1;
        if reading.changes == 0 {
            self.leave();
        }
    }

    fn value(&mut self, words: Vec<u32>) {
        self.take(Step::Value { words: words.len() });
        self.values.extend(words);
    }

    fn take(&mut self, step: Step) {
        self.steps.push(Taken { step, cursor: self.cursor });
    }

    fn enter(&mut self, node: Option<NodeIdx>, changes: u32) {
        if self.open.len() == MOST_OPEN {
            panic::resume_unwind(Box::new(TooDeep));
        }
        self.open.push(Reading { node, changes });
    }

    fn leave(&mut self) {
        self.open.pop().expect("a reading is open");
    }

    /// Is each reading that was entered left?
    pub fn is_closed(&self) -> bool {
        self.open.is_empty()
    }
}

/// `#[track_caller]` gives a place in the copy that the build made.
fn is_in_try_parse_expr(place: &Location<'_>) -> bool {
    static LINES: LazyLock<Range<u32>> = LazyLock::new(|| lines_of("fn try_parse_expr("));
    LINES.contains(&place.line()) && place.file().ends_with("/parser/mod.rs")
}

/// The lines of a method in parser/mod.rs, up to the one that closes it.
fn lines_of(signature: &str) -> Range<u32> {
    let source = include_str!(concat!(env!("OUT_DIR"), "/parser/mod.rs"));
    let lines = || source.lines().zip(1..);
    let is_first = |line: &str| line.trim_start().starts_with(signature);
    let (_, first) = lines().find(|(line, _)| is_first(line)).expect("the method is there");
    let is_last = |(line, number): &(&str, u32)| *number > first && *line == "    }";
    let (_, last) = lines().find(is_last).expect("the method is closed");
    first..last
}
