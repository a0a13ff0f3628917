//! A node as the reference's views see it.

use crate::{
    ast::{
        AssignStmt, BinaryExpr, BlockExpr, CallExpr, ConstDecl, ElseIfBranch, Expr, FieldAssign,
        FieldDef, File, FnDef, IfExpr, Import, ImportGroup, ImportGroupItemView, InitBlock,
        LetStmt, MatchArm, MatchExpr, MemberExpr, MethodDef, Param, ReturnStmt, RunBlock,
        Statement, StructDef, StructLit, TopLevelDef, TupleLit, TupleType, UnaryExpr, WhileStmt,
    },
    cst::{NodeKind, NodeView},
    lexer::TokenSpan,
    views::Tree,
    words::NODE_WIDTH,
};
use plank_core::Idx;
use plank_session::StrId;
use std::panic::{AssertUnwindSafe, catch_unwind};

/// How an answer was made.
#[derive(Debug, Clone, Copy, PartialEq, Eq)]
pub enum By {
    /// By the reference's view of the node.
    View,
    /// The node has the view's kind, and the reference makes no view of it, as another child is
    /// missing or no name; by `NodeView` and `Expr::new` of the child that is asked for.
    Child,
    /// The node has another kind than the view's.
    Kind,
}

pub struct Told<A> {
    pub answer: Option<A>,
    pub by: By,
}

/// The reference's view of a node.
pub enum Seen<V> {
    View(V),
    NoView,
    OtherKind,
}

impl<V> Seen<V> {
    pub fn told<A>(
        self,
        view: impl FnOnce(V) -> Option<A>,
        child: impl FnOnce() -> Option<A>,
    ) -> Told<A> {
        match self {
            Seen::View(found) => Told { answer: view(found), by: By::View },
            Seen::NoView => Told { answer: child(), by: By::Child },
            Seen::OtherKind => Told { answer: None, by: By::Kind },
        }
    }

    /// Where each node of the kind has a view.
    pub fn always<A>(self, view: impl FnOnce(V) -> Option<A>) -> Told<A> {
        self.told(view, || panic!("no view"))
    }

    fn of(view: Option<V>) -> Seen<V> {
        view.map_or(Seen::NoView, Seen::View)
    }
}

pub struct Node<'t> {
    tree: &'t Tree,
    pub view: NodeView<'t>,
}

/// Stands for what is not where it should be: no node has this number.
const NOWHERE: u32 = u32::MAX;

pub fn number(view: NodeView) -> u32 {
    view.idx().get()
}

pub fn tokens(span: TokenSpan) -> [u32; 2] {
    [span.start.get(), span.end.get()]
}

/// What the reference answers; none where it panics.
pub fn unless_panic<A>(answer: impl FnOnce() -> A) -> Option<A> {
    catch_unwind(AssertUnwindSafe(answer)).ok()
}

macro_rules! views {
    ($($name:ident: $view:ident, $kind:pat => $make:expr;)*) => {$(
        pub fn $name(&self) -> Seen<$view<'t>> {
            let make: fn(&Self) -> Option<$view<'t>> = $make;
            if matches!(self.view.kind(), $kind) { Seen::of(make(self)) } else { Seen::OtherKind }
        }
    )*};
}

macro_rules! of_expr {
    ($variant:ident) => {
        |node| match Expr::new(node.view) {
            Some(Expr::$variant(found)) => Some(found),
            _ => None,
        }
    };
}

macro_rules! of_statement {
    ($variant:ident) => {
        |node| match Statement::new(node.view) {
            Some(Statement::$variant(found)) => Some(found),
            _ => None,
        }
    };
}

macro_rules! of_file {
    ($variant:ident) => {
        |node| match node.definition() {
            Some(TopLevelDef::$variant(found)) => Some(found),
            _ => None,
        }
    };
}

impl<'t> Node<'t> {
    pub fn new(tree: &'t Tree, view: NodeView<'t>) -> Self {
        Node { tree, view }
    }

    pub fn tree(&self) -> &'t Tree {
        self.tree
    }

    pub fn number(&self) -> u32 {
        number(self.view)
    }

    views! {
        const_decl: ConstDecl, NodeKind::ConstDecl { .. } => of_file!(Const);
        import: Import, NodeKind::ImportDecl { .. } | NodeKind::ImportAsDecl { .. } => of_file!(Import);
        import_group: ImportGroup, NodeKind::ImportGroupDecl { .. } => of_file!(ImportGroup);
        import_group_item: ImportGroupItemView, NodeKind::ImportGroupItem => Self::made_group_item;
        block: BlockExpr, NodeKind::Block | NodeKind::ComptimeBlock | NodeKind::InitBlock | NodeKind::RunBlock
            => Self::made_block;
        let_stmt: LetStmt, NodeKind::LetStmt { .. } => of_statement!(Let);
        return_stmt: ReturnStmt, NodeKind::ReturnStmt => of_statement!(Return);
        assign_stmt: AssignStmt, NodeKind::AssignStmt => of_statement!(Assign);
        while_stmt: WhileStmt, NodeKind::WhileStmt | NodeKind::InlineWhileStmt => of_statement!(While);
        fn_def: FnDef, NodeKind::FnDef { .. } => of_expr!(FnDef);
        method_def: MethodDef, NodeKind::MethodDef { .. } => Self::made_method;
        param: Param, NodeKind::Parameter | NodeKind::ComptimeParameter => Self::made_param;
        binary: BinaryExpr, NodeKind::BinaryExpr(_) => of_expr!(Binary);
        unary: UnaryExpr, NodeKind::UnaryExpr(_) => of_expr!(Unary);
        call: CallExpr, NodeKind::CallExpr => of_expr!(Call);
        member: MemberExpr, NodeKind::MemberExpr => of_expr!(Member);
        struct_def: StructDef, NodeKind::StructDef => of_expr!(StructDef);
        field_def: FieldDef, NodeKind::FieldDef => Self::made_field_def;
        struct_lit: StructLit, NodeKind::StructLit => of_expr!(StructLit);
        field_assign: FieldAssign, NodeKind::FieldAssign => Self::made_field_assign;
        tuple_type: TupleType, NodeKind::TupleType => of_expr!(TupleType);
        tuple_lit: TupleLit, NodeKind::TupleLit => of_expr!(TupleLit);
        conditional: IfExpr, NodeKind::If => of_expr!(If);
        else_if_branch: ElseIfBranch, NodeKind::ElseIfBranch => Self::made_branch;
        selection: MatchExpr, NodeKind::Match => of_expr!(Match);
        arm: MatchArm, NodeKind::MatchArm => Self::made_arm;
        fallback_arm: MatchArm, NodeKind::MatchFallbackArm { .. } => Self::made_arm;
        literal: Expr,
            NodeKind::BoolLiteral(_) | NodeKind::NumLiteral { .. } | NodeKind::StringLiteral { .. }
            | NodeKind::SelfType | NodeKind::BuiltinName { .. } => |node| Expr::new(node.view);
    }

    /// As the only child of a file that counts.
    fn definition(&self) -> Option<TopLevelDef<'t>> {
        let file = self.tree.parents.file(&self.tree.cst);
        File::new(file)?.iter_defs().next()
    }

    fn made_group_item(&self) -> Option<ImportGroupItemView<'t>> {
        let file = self.tree.parents.group_file(&self.tree.cst);
        match File::new(file)?.iter_defs().next()? {
            TopLevelDef::ImportGroup(group) => group.items().next(),
            _ => None,
        }
    }

    fn made_block(&self) -> Option<BlockExpr<'t>> {
        match self.view.kind() {
            NodeKind::InitBlock => InitBlock::new(self.view).map(|block| block.body()),
            NodeKind::RunBlock => RunBlock::new(self.view).map(|block| block.body()),
            _ => match Expr::new(self.view)? {
                Expr::Block(block) | Expr::ComptimeBlock(block) => Some(block),
                _ => None,
            },
        }
    }

    fn made_struct(&self) -> Option<StructDef<'t>> {
        match Expr::new(self.tree.parents.struct_def(&self.tree.cst))? {
            Expr::StructDef(found) => Some(found),
            _ => None,
        }
    }

    fn made_method(&self) -> Option<MethodDef<'t>> {
        self.made_struct()?.methods().next()?.ok()
    }

    fn made_field_def(&self) -> Option<FieldDef<'t>> {
        self.made_struct()?.fields().next()?.ok()
    }

    fn made_field_assign(&self) -> Option<FieldAssign<'t>> {
        match Expr::new(self.tree.parents.struct_lit(&self.tree.cst))? {
            Expr::StructLit(found) => found.fields().next()?.ok(),
            _ => None,
        }
    }

    fn made_param(&self) -> Option<Param<'t>> {
        match Expr::new(self.tree.parents.function(&self.tree.cst))? {
            Expr::FnDef(found) => found.params().next()?.ok(),
            _ => None,
        }
    }

    fn made_branch(&self) -> Option<ElseIfBranch<'t>> {
        match Expr::new(self.tree.parents.conditional(&self.tree.cst))? {
            Expr::If(found) => found.else_if_branches().next()?.ok(),
            _ => None,
        }
    }

    /// None where the reference panics.
    fn made_arm(&self) -> Option<MatchArm<'t>> {
        match Expr::new(self.tree.parents.selection(&self.tree.cst))? {
            Expr::Match(found) => unless_panic(|| found.arms().next())?,
            _ => None,
        }
    }

    /// The node's first word.
    fn head(&self) -> u32 {
        self.tree.words.nodes[NODE_WIDTH * self.view.idx().idx()]
    }

    pub fn kind_number(&self) -> u32 {
        self.head() >> 26
    }

    pub fn payload(&self) -> u32 {
        self.head() & 0x3ff_ffff
    }

    pub fn span(&self) -> Option<[u32; 2]> {
        Some(tokens(self.view.span()))
    }

    // What the reference's answers are in the words.

    pub fn name(&self, name: StrId) -> Option<u32> {
        Some(self.tree.names.get(&name).copied().unwrap_or(NOWHERE))
    }

    /// An expression's node; none of an error.
    pub fn expr(&self, expr: Expr<'t>) -> Option<u32> {
        Some(match expr {
            Expr::Binary(found) => number(found.node()),
            Expr::Unary(found) => number(found.node()),
            Expr::Call(found) => number(found.node()),
            Expr::Member(found) => number(found.node()),
            Expr::StructDef(found) => number(found.node()),
            Expr::StructLit(found) => number(found.node()),
            Expr::TupleType(found) => number(found.node()),
            Expr::TupleLit(found) => number(found.node()),
            Expr::If(found) => number(found.node()),
            Expr::Match(found) => number(found.node()),
            Expr::FnDef(found) => number(found.node()),
            Expr::Block(found) | Expr::ComptimeBlock(found) => number(found.node()),
            Expr::BoolLiteral { value, span } => self.leaf(32, Some(u32::from(value)), span),
            Expr::NumLiteral { id, span } => {
                self.leaf(33, self.tree.numbers.get(&id).copied(), span)
            }
            Expr::StringLiteral { value, span } => {
                self.leaf(34, self.tree.strings.get(&value).copied(), span)
            }
            Expr::SelfType { span } => self.leaf(35, Some(0), span),
            Expr::Ident { name, span } => self.leaf(36, self.name(name), span),
            Expr::BuiltinName { name, span } => self.leaf(37, self.name(name), span),
            Expr::Error { .. } => return None,
        })
    }

    /// The node that has this kind, payload and tokens: the reference's view of it has no node.
    fn leaf(&self, kind: u32, payload: Option<u32>, span: TokenSpan) -> u32 {
        let [start, end] = tokens(span);
        let found = self.tree.leaves.get(&[kind, start, end]).copied();
        let head = payload.map(|payload| kind << 26 | payload);
        found
            .filter(|leaf| Some(self.tree.words.nodes[NODE_WIDTH * *leaf as usize]) == head)
            .unwrap_or(NOWHERE)
    }

    pub fn literal_payload(&self, expr: Expr<'t>) -> Option<u32> {
        match expr {
            Expr::BoolLiteral { value, .. } => Some(u32::from(value)),
            Expr::NumLiteral { id, .. } => self.tree.numbers.get(&id).copied(),
            Expr::StringLiteral { value, .. } => self.tree.strings.get(&value).copied(),
            Expr::BuiltinName { name, .. } => self.name(name),
            _ => None,
        }
    }

    /// A statement's node, or its expression's; none of an error. A `LetStmt` has no node of its
    /// own: it is that of which it was made.
    pub fn statement(&self, statement: Statement<'t>, made_of: NodeView<'t>) -> Option<u32> {
        match statement {
            Statement::Let(found) if found.span == made_of.span() => Some(number(made_of)),
            Statement::Let(_) => Some(NOWHERE),
            Statement::Return(found) => Some(number(found.node())),
            Statement::Assign(found) => Some(number(found.node())),
            Statement::While(found) => Some(number(found.node())),
            Statement::Expr(found) => self.expr(found),
            Statement::Error { .. } => None,
        }
    }

    /// The child, where the reference's item is made of it.
    pub fn item(&self, child: NodeView<'t>, is_made_of_it: bool) -> Option<u32> {
        Some(if is_made_of_it { number(child) } else { NOWHERE })
    }

    // The child that is asked for, where the reference has no view.

    pub fn child(&self, i: u32) -> Option<NodeView<'t>> {
        self.view.child(i)
    }

    pub fn child_name(&self, i: u32) -> Option<u32> {
        self.child(i)?.ident().and_then(|name| self.name(name))
    }

    pub fn child_name_span(&self, i: u32) -> Option<[u32; 2]> {
        let child = self.child(i)?;
        child.ident().map(|_| tokens(child.span()))
    }

    pub fn child_expr(&self, i: u32) -> Option<u32> {
        Expr::new(self.child(i)?).and_then(|expr| self.expr(expr))
    }

    pub fn child_block(&self, i: u32) -> Option<u32> {
        let child = self.child(i)?;
        let is_block = matches!(
            child.kind(),
            NodeKind::Block | NodeKind::ComptimeBlock | NodeKind::InitBlock | NodeKind::RunBlock
        );
        is_block.then(|| number(child))
    }

    /// The children of a kind that the child has.
    pub fn grandchildren(
        &self,
        i: u32,
        is_wanted: impl Fn(NodeKind) -> bool,
    ) -> Option<Vec<Option<u32>>> {
        let wanted = self.child(i)?.children().filter(|child| is_wanted(child.kind()));
        Some(wanted.map(|child| Some(number(child))).collect())
    }
}
