//! The four word lists of document 01, section "Words that are lent".

use crate::{
    cst::{ConcreteSyntaxTree, Node, NodeIdx, NodeKind},
    lexer::{Lexed, Token, TokenIdx},
    parser::parse,
};
use plank_core::Idx;
use plank_session::{Report, Session, SourceId, StrId};
use std::{collections::HashMap, iter, panic, thread};

#[derive(Debug, Clone, Default, PartialEq, Eq)]
pub struct Words {
    pub tokens: Vec<u32>,
    pub nodes: Vec<u32>,
    pub values: Vec<u32>,
    pub reports: Vec<u32>,
}

/// The words of a node.
pub const NODE_WIDTH: usize = 6;

/// The token words of a text.
pub fn lex(text: &str) -> Vec<u32> {
    token_words(&Lexed::lex(text))
}

/// All words of a text. Panics where the reference does.
pub fn read(text: &str) -> Words {
    let lexed = Lexed::lex(text);
    let mut session = Session::new();
    let tree = parse(&mut session, &lexed, text, SourceId::ZERO);
    words_of(text, &lexed, &session, &tree)
}

/// The words of a text that the reference has read.
pub fn words_of(text: &str, lexed: &Lexed, session: &Session, tree: &ConcreteSyntaxTree) -> Words {
    let mut writer = TreeWriter::new(text, lexed, session, tree);
    for (node, parent) in tree.nodes.iter().zip(parents_of(tree)) {
        writer.write_node(node, parent);
    }
    Words {
        tokens: token_words(lexed),
        nodes: writer.nodes,
        values: writer.values,
        reports: report_words(session),
    }
}

/// As `read`, on a stack for the deepest nest that fits into a text; `None` where the
/// reference panics.
pub fn try_read(text: &str) -> Option<Words> {
    const STACK_BYTES: usize = 1 << 30;
    thread::scope(|scope| {
        let reader = thread::Builder::new().stack_size(STACK_BYTES);
        let reader = reader.spawn_scoped(scope, || panic::catch_unwind(|| read(text)).ok());
        reader.expect("a thread for the reader").join().ok().flatten()
    })
}

fn tokens(lexed: &Lexed) -> impl Iterator<Item = TokenIdx> {
    (0..lexed.len().get()).map(TokenIdx::new)
}

pub fn token_words(lexed: &Lexed) -> Vec<u32> {
    let word = |ti| {
        let (token, span) = lexed.get(ti);
        (token as u32) << 25 | span.end.get()
    };
    tokens(lexed).map(word).collect()
}

/// The words of the reports made so far.
pub fn report_words(session: &Session) -> Vec<u32> {
    let words = |report: &Report| {
        [report.kind << 26 | report.detail, report.span.start.get(), report.span.end.get()]
    };
    session.reports().iter().flat_map(words).collect()
}

/// The parent of each node. The reference has none: it is the one whose first child and next
/// siblings lead to the node, and 0 where none does.
pub fn parents_of(tree: &ConcreteSyntaxTree) -> Vec<u32> {
    let mut parents = vec![0; tree.nodes.iter().count()];
    for (number, node) in tree.nodes.iter().enumerate() {
        let links = iter::successors(node.first_child, |child| tree.nodes[*child].next_sibling);
        links.for_each(|child| parents[child.idx()] = number as u32);
    }
    parents
}

/// Writes nodes in the order in which they were made. As the reference makes a literal's
/// value right before its node, the values come in their order too.
struct TreeWriter<'a> {
    session: &'a Session,
    tree: &'a ConcreteSyntaxTree,
    first_spelled: HashMap<&'a str, u32>,
    nodes: Vec<u32>,
    values: Vec<u32>,
}

impl<'a> TreeWriter<'a> {
    fn new(
        text: &'a str,
        lexed: &Lexed,
        session: &'a Session,
        tree: &'a ConcreteSyntaxTree,
    ) -> Self {
        let first_spelled = first_spelled(text, lexed);
        TreeWriter { session, tree, first_spelled, nodes: Vec::new(), values: Vec::new() }
    }

    fn write_node(&mut self, node: &Node, parent: u32) {
        let (kind, payload) = self.kind_and_payload(node.kind);
        self.nodes.extend([
            kind << 26 | payload,
            node.tokens.start.get(),
            node.tokens.end.get(),
            number_or_none(node.next_sibling),
            number_or_none(node.first_child),
            parent,
        ]);
    }

    /// A kind's number is its place in `NodeKind`.
    fn kind_and_payload(&mut self, kind: NodeKind) -> (u32, u32) {
        match kind {
            NodeKind::File => (0, 0),
            NodeKind::ConstDecl { typed } => (1, flags(&[typed])),
            NodeKind::ImportDecl { public, glob } => (2, flags(&[public, glob])),
            NodeKind::ImportAsDecl { public } => (3, flags(&[public])),
            NodeKind::ImportGroupDecl { public } => (4, flags(&[public])),
            NodeKind::ImportGroupItem => (5, 0),
            NodeKind::InitBlock => (6, 0),
            NodeKind::RunBlock => (7, 0),
            NodeKind::ComptimeBlock => (8, 0),
            NodeKind::Block => (9, 0),
            NodeKind::LetStmt { comptime, mutable, typed } => {
                (10, flags(&[comptime, mutable, typed]))
            }
            NodeKind::ReturnStmt => (11, 0),
            NodeKind::AssignStmt => (12, 0),
            NodeKind::WhileStmt => (13, 0),
            NodeKind::InlineWhileStmt => (14, 0),
            NodeKind::BinaryExpr(op) => (15, op as u32),
            NodeKind::UnaryExpr(op) => (16, op as u32),
            NodeKind::ParenExpr => (17, 0),
            NodeKind::CallExpr => (18, 0),
            NodeKind::MemberExpr => (19, 0),
            NodeKind::StructDef => (20, 0),
            NodeKind::StructBody => (21, 0),
            NodeKind::StructLit => (22, 0),
            NodeKind::TupleType => (23, 0),
            NodeKind::TupleLit => (24, 0),
            NodeKind::If => (25, 0),
            NodeKind::ElseIfBranchList => (26, 0),
            NodeKind::ElseIfBranch => (27, 0),
            NodeKind::Match => (28, 0),
            NodeKind::MatchArmList => (29, 0),
            NodeKind::MatchArm => (30, 0),
            NodeKind::MatchFallbackArm { binding } => (31, flags(&[binding])),
            NodeKind::BoolLiteral(value) => (32, flags(&[value])),
            NodeKind::NumLiteral { id } => {
                (33, self.add_value(number_words(&self.tree.num_lit_limbs[id])))
            }
            NodeKind::StringLiteral { value } => {
                (34, self.add_value(string_words(self.session.bytes(value))))
            }
            NodeKind::SelfType => (35, 0),
            NodeKind::Identifier { ident } => (36, self.first_token(ident)),
            NodeKind::BuiltinName { ident } => (37, self.first_token(ident)),
            NodeKind::FnDef { eager } => (38, flags(&[eager])),
            NodeKind::MethodDef { eager } => (39, flags(&[eager])),
            NodeKind::ParamList => (40, 0),
            NodeKind::Parameter => (41, 0),
            NodeKind::ComptimeParameter => (42, 0),
            NodeKind::ParamAnyType { ident } => (43, self.first_token(ident)),
            NodeKind::Operator => (44, 0),
            NodeKind::StatementsList => (45, 0),
            NodeKind::ImportPath => (46, 0),
            NodeKind::FieldDef => (47, 0),
            NodeKind::FieldAssign => (48, 0),
            NodeKind::Error => (49, 0),
        }
    }

    fn first_token(&self, name: StrId) -> u32 {
        self.first_spelled[self.session.name(name)]
    }

    fn add_value(&mut self, words: Vec<u32>) -> u32 {
        let offset = self.values.len() as u32;
        self.values.extend(words);
        offset
    }
}

/// The value of a number.
pub fn number_words(limbs: &[u32]) -> Vec<u32> {
    [&[1 << 30 | limbs.len() as u32], limbs].concat()
}

/// The value of a string.
pub fn string_words(bytes: &[u8]) -> Vec<u32> {
    let mut words = vec![2 << 30 | bytes.len() as u32];
    words.extend(bytes.chunks(4).map(packed));
    words
}

/// For each name its first token. A builtin's name begins with `@`, so one map holds both.
fn first_spelled<'a>(text: &'a str, lexed: &Lexed) -> HashMap<&'a str, u32> {
    let mut first = HashMap::new();
    for ti in tokens(lexed) {
        let (token, span) = lexed.get(ti);
        if matches!(token, Token::Identifier | Token::BuiltinName) {
            first.entry(&text[span.usize_range()]).or_insert(ti.get());
        }
    }
    first
}

fn number_or_none(node: Option<NodeIdx>) -> u32 {
    node.map_or(0, NodeIdx::get)
}

/// The first flag is the highest bit.
fn flags(flags: &[bool]) -> u32 {
    flags.iter().fold(0, |bits, flag| bits << 1 | u32::from(*flag))
}

/// Up to four bytes in a word, the first lowest.
fn packed(bytes: &[u8]) -> u32 {
    bytes.iter().rev().fold(0, |word, byte| word << 8 | u32::from(*byte))
}
