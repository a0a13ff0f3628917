//! The tree of a script (cst/mod.rs of the Plank parser), over its words.

pub use crate::numbers::{BinaryOp, UnaryOp};

use crate::{
    accessor,
    ast::File,
    lexer::{Lexed, SourceSpan, TokenIdx, TokenSpan, index},
    numbers::{NODE_LOW, NODE_WIDTH, NodeTag, REPORT_WIDTH, VALUE_LOW, ValueTag, flag},
    raw::{self, Lengths},
    refusal::Refusal,
    report::Report,
};
use std::{fmt, iter};

index! {
    /// The number of a node.
    NodeIdx
}

index! {
    /// A name: the first token that is spelled so. Two names of a tree are spelled alike where
    /// these are equal, a builtin's apart from others.
    StrId
}

index! {
    /// Where a number stands in the value words.
    NumLitId
}

index! {
    /// Where the bytes of a string stand in the value words.
    BytesId
}

#[derive(Debug, Clone, Copy, PartialEq, Eq, Hash)]
pub enum NodeKind {
    File,

    // Declarations
    ConstDecl { typed: bool },
    ImportDecl { public: bool, glob: bool },
    ImportAsDecl { public: bool },
    ImportGroupDecl { public: bool },
    ImportGroupItem,
    InitBlock,
    RunBlock,

    // Statements
    ComptimeBlock,
    Block,
    LetStmt { comptime: bool, mutable: bool, typed: bool },
    ReturnStmt,
    AssignStmt,
    WhileStmt,
    InlineWhileStmt,

    // Expressions
    BinaryExpr(BinaryOp),
    UnaryExpr(UnaryOp),
    ParenExpr,
    CallExpr,
    MemberExpr,
    StructDef,
    StructBody,
    StructLit,
    TupleType,
    TupleLit,

    // Conditional
    If,
    ElseIfBranchList,
    ElseIfBranch,

    // Match
    Match,
    MatchArmList,
    MatchArm,
    MatchFallbackArm { binding: bool },

    // Atoms
    BoolLiteral(bool),
    NumLiteral { id: NumLitId },
    StringLiteral { value: BytesId },
    SelfType,
    Identifier { ident: StrId },
    BuiltinName { ident: StrId },

    // Function Definition
    FnDef { eager: bool },
    MethodDef { eager: bool },
    ParamList,
    Parameter,
    ComptimeParameter,
    ParamAnyType { ident: StrId },

    // Misc
    Operator,
    StatementsList,
    ImportPath,
    FieldDef,
    FieldAssign,

    // Errors
    Error,
}

impl NodeKind {
    /// None where there is no such operator.
    fn from_payload(tag: NodeTag, payload: u32) -> Option<Self> {
        let has = |flag: u32| payload / flag % 2 == 1;
        let ident = StrId::new(payload);
        Some(match tag {
            NodeTag::File => Self::File,
            NodeTag::ConstDecl => Self::ConstDecl { typed: has(flag::CONST_DECL_TYPED) },
            NodeTag::ImportDecl => Self::ImportDecl {
                public: has(flag::IMPORT_DECL_PUBLIC),
                glob: has(flag::IMPORT_DECL_GLOB),
            },
            NodeTag::ImportAsDecl => {
                Self::ImportAsDecl { public: has(flag::IMPORT_AS_DECL_PUBLIC) }
            }
            NodeTag::ImportGroupDecl => {
                Self::ImportGroupDecl { public: has(flag::IMPORT_GROUP_DECL_PUBLIC) }
            }
            NodeTag::ImportGroupItem => Self::ImportGroupItem,
            NodeTag::InitBlock => Self::InitBlock,
            NodeTag::RunBlock => Self::RunBlock,
            NodeTag::ComptimeBlock => Self::ComptimeBlock,
            NodeTag::Block => Self::Block,
            NodeTag::LetStmt => Self::LetStmt {
                comptime: has(flag::LET_STMT_COMPTIME),
                mutable: has(flag::LET_STMT_MUTABLE),
                typed: has(flag::LET_STMT_TYPED),
            },
            NodeTag::ReturnStmt => Self::ReturnStmt,
            NodeTag::AssignStmt => Self::AssignStmt,
            NodeTag::WhileStmt => Self::WhileStmt,
            NodeTag::InlineWhileStmt => Self::InlineWhileStmt,
            NodeTag::BinaryExpr => Self::BinaryExpr(BinaryOp::from_number(payload)?),
            NodeTag::UnaryExpr => Self::UnaryExpr(UnaryOp::from_number(payload)?),
            NodeTag::ParenExpr => Self::ParenExpr,
            NodeTag::CallExpr => Self::CallExpr,
            NodeTag::MemberExpr => Self::MemberExpr,
            NodeTag::StructDef => Self::StructDef,
            NodeTag::StructBody => Self::StructBody,
            NodeTag::StructLit => Self::StructLit,
            NodeTag::TupleType => Self::TupleType,
            NodeTag::TupleLit => Self::TupleLit,
            NodeTag::If => Self::If,
            NodeTag::ElseIfBranchList => Self::ElseIfBranchList,
            NodeTag::ElseIfBranch => Self::ElseIfBranch,
            NodeTag::Match => Self::Match,
            NodeTag::MatchArmList => Self::MatchArmList,
            NodeTag::MatchArm => Self::MatchArm,
            NodeTag::MatchFallbackArm => {
                Self::MatchFallbackArm { binding: has(flag::MATCH_FALLBACK_ARM_BINDING) }
            }
            NodeTag::BoolLiteral => Self::BoolLiteral(has(flag::BOOL_LITERAL_TRUE)),
            NodeTag::NumLiteral => Self::NumLiteral { id: NumLitId::new(payload) },
            NodeTag::StringLiteral => Self::StringLiteral { value: BytesId::new(payload) },
            NodeTag::SelfType => Self::SelfType,
            NodeTag::Identifier => Self::Identifier { ident },
            NodeTag::BuiltinName => Self::BuiltinName { ident },
            NodeTag::FnDef => Self::FnDef { eager: has(flag::FN_DEF_EAGER) },
            NodeTag::MethodDef => Self::MethodDef { eager: has(flag::METHOD_DEF_EAGER) },
            NodeTag::ParamList => Self::ParamList,
            NodeTag::Parameter => Self::Parameter,
            NodeTag::ComptimeParameter => Self::ComptimeParameter,
            NodeTag::ParamAnyType => Self::ParamAnyType { ident },
            NodeTag::Operator => Self::Operator,
            NodeTag::StatementsList => Self::StatementsList,
            NodeTag::ImportPath => Self::ImportPath,
            NodeTag::FieldDef => Self::FieldDef,
            NodeTag::FieldAssign => Self::FieldAssign,
            NodeTag::Error => Self::Error,
        })
    }

    /// Whether an expression needs a `;` as a statement; none of what is no expression.
    pub fn expr_requires_semi_as_stmt(&self) -> Option<bool> {
        match self {
            Self::ComptimeBlock | Self::Block | Self::If | Self::Match | Self::Error => Some(false),
            Self::BinaryExpr(_)
            | Self::UnaryExpr(_)
            | Self::ParenExpr
            | Self::CallExpr
            | Self::MemberExpr
            | Self::FnDef { .. }
            | Self::StructDef
            | Self::StructLit
            | Self::TupleType
            | Self::TupleLit
            | Self::BoolLiteral(_)
            | Self::NumLiteral { .. }
            | Self::StringLiteral { .. }
            | Self::SelfType
            | Self::Identifier { .. }
            | Self::BuiltinName { .. } => Some(true),
            _ => None,
        }
    }

    pub fn as_ident(&self) -> Option<StrId> {
        match self {
            Self::Identifier { ident } => Some(*ident),
            _ => None,
        }
    }
}

#[derive(Debug, Clone, Copy, PartialEq, Eq)]
pub struct Node {
    pub kind: NodeKind,
    pub tokens: TokenSpan,
    pub next_sibling: Option<NodeIdx>,
    pub first_child: Option<NodeIdx>,
    /// The node whose child it is; 0, the file's number, where it is nobody's child: of the file
    /// ([`NodeView::parent`] tells none), and of nodes that reading never makes.
    pub parent: NodeIdx,
}

/// The words of a node; 0 links nothing, as File is nobody's child.
fn link(word: u32) -> Option<NodeIdx> {
    (word != 0).then_some(NodeIdx::new(word))
}

impl Node {
    /// None where there is no such kind or operator.
    fn from_words(words: [u32; NODE_WIDTH]) -> Option<Self> {
        let [head, first, end, next, child, parent] = words;
        let tag = NodeTag::from_number(head >> NODE_LOW)?;
        Some(Self {
            kind: NodeKind::from_payload(tag, head & ((1 << NODE_LOW) - 1))?,
            tokens: TokenSpan::new(TokenIdx::new(first), TokenIdx::new(end)),
            next_sibling: link(next),
            first_child: link(child),
            parent: NodeIdx::new(parent),
        })
    }
}

/// Why words are no tree.
#[derive(Debug, Clone, Copy, PartialEq, Eq)]
pub enum Altered {
    /// A token with a kind that there isn't.
    Token(TokenIdx),
    /// Refusal 8: a node that links past the words, has a kind that there isn't or a next sibling
    /// not above it; or node 0 isn't there.
    Node(Refusal),
    /// Node 0 is no File.
    NoFile,
    /// An operator that there isn't.
    Operator(NodeIdx),
    /// A node that is linked twice.
    Linked(NodeIdx),
    /// A node with another parent than the one whose child it is.
    Parent(NodeIdx),
    /// A report with a kind or detail that there isn't.
    Report(u32),
    /// Words behind the last whole node or report.
    LeftOver,
}

impl fmt::Display for Altered {
    fn fmt(&self, f: &mut fmt::Formatter<'_>) -> fmt::Result {
        match self {
            Altered::Token(index) => write!(f, "the word of token {index} was altered"),
            Altered::Node(refusal) => refusal.fmt(f),
            Altered::NoFile => write!(f, "node 0 is no File"),
            Altered::Operator(node) => write!(f, "the operator of node {node} was altered"),
            Altered::Linked(node) => write!(f, "node {node} is linked twice"),
            Altered::Parent(node) => write!(f, "the parent of node {node} was altered"),
            Altered::Report(index) => write!(f, "the words of report {index} were altered"),
            Altered::LeftOver => write!(f, "there are words behind the last node or report"),
        }
    }
}

impl std::error::Error for Altered {}

/// A script's text, tokens, tree, values and reports.
#[derive(Debug, Clone, PartialEq, Eq)]
pub struct ConcreteSyntaxTree {
    source: Box<str>,
    lexed: Lexed,
    /// Whole nodes, checked by `check_nodes`.
    nodes: Vec<u32>,
    values: Vec<u32>,
    /// Whole reports, with kinds and details that there are.
    reports: Vec<u32>,
}

impl ConcreteSyntaxTree {
    pub const FILE_IDX: NodeIdx = NodeIdx::ZERO;

    pub(crate) fn read(text: &[u8]) -> Result<Self, Refusal> {
        let lengths = Lengths::enough(text.len());
        let mut tokens = vec![0; lengths.tokens];
        let mut nodes = vec![0; lengths.nodes];
        let mut values = vec![0; lengths.values];
        let mut reports = vec![0; lengths.reports];
        let counts = raw::read(text, &mut tokens, &mut nodes, &mut values, &mut reports)?;
        for (words, count) in [
            (&mut tokens, counts.tokens),
            (&mut nodes, NODE_WIDTH * counts.nodes),
            (&mut values, counts.values),
            (&mut reports, REPORT_WIDTH * counts.reports),
        ] {
            words.truncate(count);
            words.shrink_to_fit();
        }
        let source = str::from_utf8(text).expect("UTF-8, as it was not refused");
        let tree = Self::from_words(source, tokens, nodes, values, reports);
        Ok(tree.expect("words of a library that this crate is for"))
    }

    /// A tree of words that were kept, such as an archive's. They are checked so far that all views
    /// can answer, that a walk from the file ends and that every parent is the node's. Whether they
    /// are the text's, only reading it again and comparing shows.
    pub fn from_words(
        source: &str,
        tokens: Vec<u32>,
        nodes: Vec<u32>,
        values: Vec<u32>,
        reports: Vec<u32>,
    ) -> Result<Self, Altered> {
        let lexed = Lexed::from_words(tokens).map_err(Altered::Token)?;
        check_nodes(&nodes)?;
        check_reports(&reports)?;
        Ok(Self { source: source.into(), lexed, nodes, values, reports })
    }

    pub fn source(&self) -> &str {
        &self.source
    }

    pub fn lexed(&self) -> &Lexed {
        &self.lexed
    }

    /// The words themselves, as docs/FORMAT.md has them.
    pub fn node_words(&self) -> &[u32] {
        &self.nodes
    }

    pub fn value_words(&self) -> &[u32] {
        &self.values
    }

    pub fn report_words(&self) -> &[u32] {
        &self.reports
    }

    /// How many nodes there are.
    pub fn node_count(&self) -> u32 {
        (self.nodes.len() / NODE_WIDTH) as u32
    }

    /// None past the nodes.
    pub fn node(&self, idx: NodeIdx) -> Option<Node> {
        let words = self.nodes.as_chunks().0.get(idx.get() as usize)?;
        Node::from_words(*words)
    }

    pub fn reports(&self) -> impl ExactSizeIterator<Item = Report> {
        let checked = |words: &[u32; REPORT_WIDTH]| {
            Report::from_words(*words).expect("checked by `from_words`")
        };
        self.reports.as_chunks().0.iter().map(checked)
    }

    pub fn as_file(&self) -> File<'_> {
        File::of(self.file_view())
    }

    pub fn file_view(&self) -> NodeView<'_> {
        NodeView { cst: self, idx: Self::FILE_IDX }
    }

    /// The part of the text that a name is, of a builtin with its `@`; the empty part past the
    /// tokens.
    pub fn name(&self, name: StrId) -> &str {
        self.lexed.token_src_span(TokenIdx::new(name.get())).map_or("", |span| self.part(span))
    }

    /// The part of the text that tokens cover; the empty part past the tokens.
    pub fn text(&self, tokens: TokenSpan) -> &str {
        self.lexed.tokens_src_span(tokens).map_or("", |span| self.part(span))
    }

    fn part(&self, span: SourceSpan) -> &str {
        self.source.get(span.start.get() as usize..span.end.get() as usize).unwrap_or("")
    }

    /// The tag and count of a value, and the words behind them.
    fn value(&self, at: u32) -> Option<(ValueTag, usize, &[u32])> {
        let (head, rest) = self.values.get(at as usize..)?.split_first()?;
        let tag = ValueTag::from_number(head >> VALUE_LOW)?;
        Some((tag, (head & ((1 << VALUE_LOW) - 1)) as usize, rest))
    }

    /// A number's limbs, least first, with no top zero. None where no number stands.
    pub fn num_lit_limbs(&self, id: NumLitId) -> Option<&[u32]> {
        match self.value(id.get())? {
            (ValueTag::Number, count, rest) => rest.get(..count),
            (ValueTag::String, ..) => None,
        }
    }

    /// A string's bytes. None where no string stands.
    pub fn bytes(&self, id: BytesId) -> Option<Vec<u8>> {
        match self.value(id.get())? {
            (ValueTag::String, count, rest) => {
                let words = rest.get(..count.div_ceil(4))?;
                Some(words.iter().flat_map(|word| word.to_le_bytes()).take(count).collect())
            }
            (ValueTag::Number, ..) => None,
        }
    }
}

/// Every node can be looked at, links a node that is there, and is linked once at most: no walk
/// from the file comes back to a node.
fn check_nodes(nodes: &[u32]) -> Result<(), Altered> {
    let (all, []) = nodes.as_chunks::<NODE_WIDTH>() else { return Err(Altered::LeftOver) };
    let mut linked = vec![false; all.len()];
    let file = raw::number(accessor::FILE, nodes, 0, 0).map_err(Altered::Node)?;
    linked[file.ok_or(Altered::NoFile)? as usize] = true;
    for (n, words) in all.iter().enumerate() {
        let idx = NodeIdx::new(n as u32);
        raw::number(accessor::KIND, nodes, idx.get(), 0).map_err(Altered::Node)?;
        let node = Node::from_words(*words).ok_or(Altered::Operator(idx))?;
        for to in [node.next_sibling, node.first_child].into_iter().flatten() {
            match linked.get_mut(to.get() as usize) {
                None => return Err(Altered::Node(Refusal::AlteredNodes { node: to })),
                Some(true) => return Err(Altered::Linked(to)),
                Some(free) => *free = true,
            }
        }
    }
    check_parents(all)
}

/// Every node has the parent whose child it is, and 0 where it is nobody's child. All are linked
/// once at most, so no child is met twice.
fn check_parents(all: &[[u32; NODE_WIDTH]]) -> Result<(), Altered> {
    let mut parents = vec![0; all.len()];
    for (n, [.., child, _]) in all.iter().enumerate() {
        let mut at = *child;
        while at != 0 {
            parents[at as usize] = n as u32;
            [.., at, _, _] = all[at as usize];
        }
    }
    let told = all.iter().map(|[.., parent]| parent);
    match told.zip(&parents).position(|(told, parent)| told != parent) {
        Some(n) => Err(Altered::Parent(NodeIdx::new(n as u32))),
        None => Ok(()),
    }
}

fn check_reports(reports: &[u32]) -> Result<(), Altered> {
    let (all, []) = reports.as_chunks::<REPORT_WIDTH>() else { return Err(Altered::LeftOver) };
    match all.iter().position(|words| Report::from_words(*words).is_none()) {
        Some(at) => Err(Altered::Report(at as u32)),
        None => Ok(()),
    }
}

/// A node of a tree.
#[derive(Clone, Copy)]
pub struct NodeView<'cst> {
    cst: &'cst ConcreteSyntaxTree,
    /// A node that is there.
    idx: NodeIdx,
}

impl fmt::Debug for NodeView<'_> {
    fn fmt(&self, f: &mut fmt::Formatter<'_>) -> fmt::Result {
        write!(f, "#{} {:?}", self.idx, self.kind())
    }
}

impl<'cst> NodeView<'cst> {
    /// Refusal 8 past the nodes.
    pub fn new(cst: &'cst ConcreteSyntaxTree, idx: NodeIdx) -> Result<Self, Refusal> {
        if idx.get() < cst.node_count() {
            Ok(Self { cst, idx })
        } else {
            Err(Refusal::AlteredNodes { node: idx })
        }
    }

    fn node(self) -> Node {
        self.cst.node(self.idx).expect("a node that is there")
    }

    pub fn cst(self) -> &'cst ConcreteSyntaxTree {
        self.cst
    }

    pub fn kind(self) -> NodeKind {
        self.node().kind
    }

    pub fn span(self) -> TokenSpan {
        self.node().tokens
    }

    pub fn idx(self) -> NodeIdx {
        self.idx
    }

    /// The children, one link at a time. A next sibling is above its own node, so they end.
    pub fn children(self) -> impl Iterator<Item = NodeView<'cst>> {
        let at = move |idx| NodeView { cst: self.cst, idx };
        let first = self.node().first_child.map(at);
        iter::successors(first, move |child| child.node().next_sibling.map(at))
    }

    pub fn child(self, i: u32) -> Option<NodeView<'cst>> {
        self.tells_node(accessor::CHILD, i)
    }

    pub fn ident(self) -> Option<StrId> {
        self.kind().as_ident()
    }

    /// The node whose child it is. The file has none. A node that is nobody's child, which reading
    /// never makes, counts as the file's.
    pub fn parent(self) -> Option<NodeView<'cst>> {
        self.tells_node(accessor::PARENT, 0)
    }

    /// The parent, its parent and so on, up to the file. Of kept words, nodes that the file doesn't
    /// reach may stand in a ring: then it ends after as many as there are nodes.
    pub fn ancestors(self) -> impl Iterator<Item = NodeView<'cst>> {
        let all = iter::successors(self.parent(), |view| view.parent());
        all.take(self.cst.node_count() as usize)
    }

    /// The declaration that holds it: the child of the file among its ancestors, or itself. The
    /// file has none, nor has what stands in or below a ring. A node that is nobody's child, which
    /// reading never makes, counts as the file's.
    pub fn enclosing_declaration(self) -> Option<NodeView<'cst>> {
        self.tells_node(accessor::ENCLOSING_DECLARATION, 0)
    }

    /// Of this node and all below it, the innermost with first token ≤ `token` < end; none where
    /// this node doesn't cover it, and in a ring.
    pub fn node_at_token(self, token: TokenIdx) -> Option<NodeView<'cst>> {
        self.tells_node(accessor::NODE_AT_TOKEN, token.get())
    }

    /// What an accessor tells of this node. The nodes were checked, so none is refused.
    pub(crate) fn tells(self, which: u32, i: u32) -> Option<u32> {
        raw::number(which, &self.cst.nodes, self.idx.get(), i).expect("checked by `from_words`")
    }

    /// The same of accessors that tell a node.
    pub(crate) fn tells_node(self, which: u32, i: u32) -> Option<NodeView<'cst>> {
        self.tells(which, i).map(|n| NodeView { cst: self.cst, idx: NodeIdx::new(n) })
    }

    /// The same of accessors that tell a name.
    pub(crate) fn tells_name(self, which: u32) -> Option<StrId> {
        self.tells(which, 0).map(StrId::new)
    }

    /// The same of accessors that tell tokens.
    pub(crate) fn tells_span(self, which: u32) -> Option<TokenSpan> {
        raw::span(which, &self.cst.nodes, self.idx.get()).expect("checked by `from_words`")
    }

    /// What stands inside brackets.
    pub(crate) fn peeled(self) -> NodeView<'cst> {
        let inner = |view: &NodeView<'cst>| match view.kind() {
            NodeKind::ParenExpr => view.child(0),
            _ => None,
        };
        // Brackets may stand in a ring that can't be reached from the file.
        let all = iter::successors(Some(self), inner).take(self.cst.node_count() as usize);
        all.last().unwrap_or(self)
    }
}
