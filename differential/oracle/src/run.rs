//! A watched run of the reference.

use crate::{
    cst::ConcreteSyntaxTree,
    lexer::Lexed,
    parser::parse,
    watch::{Step, Taken, TooDeep, Watch},
    words::{NODE_WIDTH, Words, report_words, token_words, words_of},
};
use plank_core::Idx;
use plank_session::{Session, SourceId};
use std::{
    any::Any,
    cell::RefCell,
    panic::{AssertUnwindSafe, catch_unwind},
    rc::Rc,
};

/// What the reference did with a text, up to its end.
#[derive(Debug, Clone, PartialEq, Eq)]
pub struct Run {
    pub tokens: Vec<u32>,
    pub steps: Vec<Taken>,
    /// The values and reports that were made, also where the end came early.
    pub values: Vec<u32>,
    pub reports: Vec<u32>,
    /// The token number at the cursor.
    pub cursor: u32,
    pub end: End,
}

#[derive(Debug, Clone, PartialEq, Eq)]
pub enum End {
    Read(Words),
    /// Ended before it entered one reading more than are allowed.
    TooDeep,
    Panicked(String),
}

/// The lengths of the slices that are lent for nodes, values and reports, in words.
#[derive(Debug, Clone, Copy, PartialEq, Eq)]
pub struct Lengths {
    pub nodes: usize,
    pub values: usize,
    pub reports: usize,
}

/// A refusal by document 01: its number, and the token number at the cursor.
#[derive(Debug, Clone, Copy, PartialEq, Eq)]
pub struct Refusal {
    pub number: u32,
    pub place: u32,
}

const TOO_DEEP: u32 = 3;
const NODES_DONT_FIT: u32 = 5;
const VALUES_DONT_FIT: u32 = 6;
const REPORTS_DONT_FIT: u32 = 7;

impl Run {
    /// The words that all steps take.
    pub fn need(&self) -> Lengths {
        let count = |step| self.steps.iter().filter(|taken| taken.step == step).count();
        Lengths {
            nodes: NODE_WIDTH * count(Step::Node),
            values: self.values.len(),
            reports: 3 * count(Step::Report),
        }
    }

    /// The first step that is refused where slices of these lengths are lent.
    pub fn refusal(&self, lent: Lengths) -> Option<Refusal> {
        let mut left = lent;
        for Taken { step, cursor } in &self.steps {
            let (room, words, number) = match step {
                Step::Node => (&mut left.nodes, NODE_WIDTH, NODES_DONT_FIT),
                Step::Value { words } => (&mut left.values, *words, VALUES_DONT_FIT),
                Step::Report => (&mut left.reports, 3, REPORTS_DONT_FIT),
            };
            match room.checked_sub(words) {
                Some(rest) => *room = rest,
                None => return Some(Refusal { number, place: *cursor }),
            }
        }
        let is_too_deep = self.end == End::TooDeep;
        is_too_deep.then_some(Refusal { number: TOO_DEEP, place: self.cursor })
    }
}

/// Runs the reference, at most as deep as document 01 allows.
pub fn run(text: &str) -> Run {
    let lexed = Lexed::lex(text);
    let mut session = Session::new();
    let watch = Rc::new(RefCell::new(Watch::default()));
    let outcome = watched(&watch, || parse(&mut session, &lexed, text, SourceId::ZERO));
    let watch = watch.take();
    let end = match outcome {
        Ok(_) if !watch.is_closed() => End::Panicked("a reading was not left".to_string()),
        Ok(tree) => End::Read(words_of(text, &lexed, &session, &tree)),
        Err(panic) if panic.is::<TooDeep>() => End::TooDeep,
        Err(panic) => End::Panicked(message(panic.as_ref())),
    };
    Run {
        tokens: token_words(&lexed),
        steps: watch.steps,
        values: watch.values,
        reports: report_words(&session),
        cursor: watch.cursor,
        end,
    }
}

/// The tree of a text and its words; none where the reference panics or the text is too deep.
pub fn read_tree(text: &str) -> Option<(ConcreteSyntaxTree, Words)> {
    let lexed = Lexed::lex(text);
    let mut session = Session::new();
    let watch = Rc::new(RefCell::new(Watch::default()));
    let tree = watched(&watch, || parse(&mut session, &lexed, text, SourceId::ZERO)).ok()?;
    let words = words_of(text, &lexed, &session, &tree);
    Some((tree, words))
}

fn watched(
    watch: &Rc<RefCell<Watch>>,
    parse: impl FnOnce() -> ConcreteSyntaxTree,
) -> Result<ConcreteSyntaxTree, Box<dyn Any + Send>> {
    let watch = Rc::clone(watch);
    let told = move |call: hooks::Call<'_>| watch.borrow_mut().told(call);
    catch_unwind(AssertUnwindSafe(|| hooks::watch(told, parse)))
}

fn message(panic: &(dyn Any + Send)) -> String {
    let text = panic.downcast_ref::<&str>().map(|text| text.to_string());
    text.or_else(|| panic.downcast_ref::<String>().cloned()).unwrap_or_default()
}
