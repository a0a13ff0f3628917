//! Views of expressions and statements (ast/expr.rs of the Plank parser).

use crate::{
    accessor,
    cst::{BinaryOp, BytesId, NodeKind, NodeView, NumLitId, StrId, UnaryOp},
    lexer::TokenSpan,
};

#[derive(Debug, Clone, Copy)]
pub enum Expr<'cst> {
    Binary(BinaryExpr<'cst>),
    Unary(UnaryExpr<'cst>),
    Call(CallExpr<'cst>),
    Member(MemberExpr<'cst>),
    StructDef(StructDef<'cst>),
    StructLit(StructLit<'cst>),
    TupleType(TupleType<'cst>),
    TupleLit(TupleLit<'cst>),
    If(IfExpr<'cst>),
    Match(MatchExpr<'cst>),
    FnDef(FnDef<'cst>),
    Block(BlockExpr<'cst>),
    ComptimeBlock(BlockExpr<'cst>),
    BoolLiteral { value: bool, span: TokenSpan },
    NumLiteral { id: NumLitId, span: TokenSpan },
    StringLiteral { value: BytesId, span: TokenSpan },
    SelfType { span: TokenSpan },
    Ident { name: StrId, span: TokenSpan },
    BuiltinName { name: StrId, span: TokenSpan },
    Error { span: TokenSpan },
}

impl<'cst> Expr<'cst> {
    pub fn new_unwrap(view: NodeView<'cst>) -> Self {
        Expr::new(view).unwrap_or(Expr::Error { span: view.span() })
    }

    /// The expression that a node is, without brackets around it. None of nodes that are no
    /// expressions.
    pub fn new(view: NodeView<'cst>) -> Option<Self> {
        match view.tells_node(accessor::EXPR, 0) {
            Some(whole) => Self::whole(whole),
            None => Self::broken(view),
        }
    }

    /// Of a node of which `EXPR` tells itself: no bracket, and no part that it asks for is missing.
    fn whole(view: NodeView<'cst>) -> Option<Self> {
        let span = view.span();
        let expr = match view.kind() {
            NodeKind::BinaryExpr(op) => BinaryExpr::new(op, view).map(Expr::Binary),
            NodeKind::UnaryExpr(op) => Some(Expr::Unary(UnaryExpr { op, view })),
            NodeKind::CallExpr => Some(Expr::Call(CallExpr { view })),
            NodeKind::MemberExpr => MemberExpr::new(view).map(Expr::Member),
            NodeKind::StructDef => StructDef::new(view).map(Expr::StructDef),
            NodeKind::StructLit => Some(Expr::StructLit(StructLit { view })),
            NodeKind::TupleType => Some(Expr::TupleType(TupleType { view })),
            NodeKind::TupleLit => Some(Expr::TupleLit(TupleLit { view })),
            NodeKind::If => IfExpr::new(view).map(Expr::If),
            NodeKind::Match => MatchExpr::new(view).map(Expr::Match),
            NodeKind::FnDef { eager } => FnDef::new(eager, view).map(Expr::FnDef),
            NodeKind::Block => BlockExpr::new(view).map(Expr::Block),
            NodeKind::ComptimeBlock => BlockExpr::new(view).map(Expr::ComptimeBlock),
            NodeKind::BoolLiteral(value) => Some(Expr::BoolLiteral { value, span }),
            NodeKind::NumLiteral { id } => Some(Expr::NumLiteral { id, span }),
            NodeKind::StringLiteral { value } => Some(Expr::StringLiteral { value, span }),
            NodeKind::SelfType => Some(Expr::SelfType { span }),
            NodeKind::Identifier { ident } => Some(Expr::Ident { name: ident, span }),
            NodeKind::BuiltinName { ident } => Some(Expr::BuiltinName { name: ident, span }),
            _ => None,
        };
        expr.or_else(|| Self::broken(view))
    }

    /// Of a node of which `EXPR` tells none: an Error, an expression that lacks a part, or no
    /// expression.
    fn broken(view: NodeView<'cst>) -> Option<Self> {
        let inner = view.peeled();
        inner.kind().expr_requires_semi_as_stmt().map(|_| Expr::Error { span: inner.span() })
    }

    /// The expression that an accessor tells, which stands in child `i`; `Err(span)` where there is
    /// no such child, or it is no expression.
    pub(super) fn part(view: NodeView<'cst>, which: u32, i: u32) -> Result<Self, TokenSpan> {
        let part = match view.tells_node(which, 0) {
            Some(whole) => Self::whole(whole),
            None => view.child(i).and_then(Self::broken),
        };
        part.ok_or(view.span())
    }

    /// The same with an `Expr::Error` that has the child's span, or the node's where there is no
    /// child.
    fn part_unwrap(view: NodeView<'cst>, which: u32, i: u32) -> Self {
        Self::part(view, which, i).unwrap_or_else(|span| {
            let span = view.child(i).map_or(span, NodeView::span);
            Expr::Error { span }
        })
    }

    pub fn span(&self) -> TokenSpan {
        match self {
            Expr::Binary(BinaryExpr { view, .. })
            | Expr::Unary(UnaryExpr { view, .. })
            | Expr::Call(CallExpr { view, .. })
            | Expr::Member(MemberExpr { view, .. })
            | Expr::StructDef(StructDef { view, .. })
            | Expr::StructLit(StructLit { view, .. })
            | Expr::TupleType(TupleType { view })
            | Expr::TupleLit(TupleLit { view })
            | Expr::If(IfExpr { view, .. })
            | Expr::Match(MatchExpr { view, .. })
            | Expr::FnDef(FnDef { view, .. })
            | Expr::Block(BlockExpr { view, .. })
            | Expr::ComptimeBlock(BlockExpr { view, .. }) => view.span(),
            Expr::BoolLiteral { span, .. }
            | Expr::NumLiteral { span, .. }
            | Expr::StringLiteral { span, .. }
            | Expr::SelfType { span }
            | Expr::Ident { span, .. }
            | Expr::BuiltinName { span, .. }
            | Expr::Error { span, .. } => *span,
        }
    }
}

#[derive(Debug, Clone, Copy)]
pub struct BinaryExpr<'cst> {
    pub op: BinaryOp,
    op_span: TokenSpan,
    view: NodeView<'cst>,
}

impl<'cst> BinaryExpr<'cst> {
    fn new(op: BinaryOp, view: NodeView<'cst>) -> Option<Self> {
        Some(Self { op, op_span: view.tells_span(accessor::BINARY_EXPR_OP_SPAN)?, view })
    }

    pub fn lhs(&self) -> Expr<'cst> {
        Expr::part_unwrap(self.view, accessor::BINARY_EXPR_LHS, 0)
    }

    pub fn op_span(&self) -> TokenSpan {
        self.op_span
    }

    pub fn rhs(&self) -> Expr<'cst> {
        Expr::part_unwrap(self.view, accessor::BINARY_EXPR_RHS, 2)
    }

    pub fn node(&self) -> NodeView<'cst> {
        self.view
    }
}

/// `op operand`
#[derive(Debug, Clone, Copy)]
pub struct UnaryExpr<'cst> {
    pub op: UnaryOp,
    view: NodeView<'cst>,
}

impl<'cst> UnaryExpr<'cst> {
    pub fn operand(&self) -> Expr<'cst> {
        Expr::part_unwrap(self.view, accessor::UNARY_EXPR_OPERAND, 0)
    }

    pub fn node(&self) -> NodeView<'cst> {
        self.view
    }
}

/// `callee(arg1, arg2, ...)`
#[derive(Debug, Clone, Copy)]
pub struct CallExpr<'cst> {
    view: NodeView<'cst>,
}

impl<'cst> CallExpr<'cst> {
    pub fn callee(&self) -> Expr<'cst> {
        Expr::part_unwrap(self.view, accessor::CALL_EXPR_CALLEE, 0)
    }

    /// The callee, if it is a `MemberExpr` without brackets.
    pub fn direct_member_callee(&self) -> Option<MemberExpr<'cst>> {
        let callee = self.view.tells_node(accessor::CALL_EXPR_DIRECT_MEMBER_CALLEE, 0)?;
        MemberExpr::new(callee)
    }

    pub fn args(&self) -> impl Iterator<Item = Expr<'cst>> + use<'cst> {
        self.view.children().skip(1).map(Expr::new_unwrap)
    }

    pub fn node(&self) -> NodeView<'cst> {
        self.view
    }
}

/// `object.member`
#[derive(Debug, Clone, Copy)]
pub struct MemberExpr<'cst> {
    pub member: StrId,
    view: NodeView<'cst>,
}

impl<'cst> MemberExpr<'cst> {
    fn new(view: NodeView<'cst>) -> Option<Self> {
        Some(Self { member: view.tells_name(accessor::MEMBER_EXPR_MEMBER)?, view })
    }

    pub fn object(&self) -> Expr<'cst> {
        Expr::part_unwrap(self.view, accessor::MEMBER_EXPR_OBJECT, 0)
    }

    pub fn node(&self) -> NodeView<'cst> {
        self.view
    }
}

/// `struct { field1: Type1, ... }` or `struct TypeIndex { field1: Type1, ... }`
#[derive(Debug, Clone, Copy)]
pub struct StructDef<'cst> {
    body_node: NodeView<'cst>,
    view: NodeView<'cst>,
}

impl<'cst> StructDef<'cst> {
    fn new(view: NodeView<'cst>) -> Option<Self> {
        Some(Self { body_node: view.tells_node(accessor::STRUCT_BODY, 0)?, view })
    }

    pub fn index_expr(&self) -> Option<Expr<'cst>> {
        let first = self.view.child(0).filter(|child| child.kind() != NodeKind::StructBody);
        first.map(|_| Expr::part_unwrap(self.view, accessor::STRUCT_DEF_INDEX_EXPR, 0))
    }

    pub fn fields(&self) -> impl Iterator<Item = Result<FieldDef<'cst>, TokenSpan>> + use<'cst> {
        self.body_node.children().filter_map(|child| FieldDef::try_new(child).transpose())
    }

    pub fn methods(&self) -> impl Iterator<Item = Result<MethodDef<'cst>, TokenSpan>> + use<'cst> {
        self.body_node.children().filter_map(|child| MethodDef::try_new(child).transpose())
    }

    pub fn node(&self) -> NodeView<'cst> {
        self.view
    }
}

/// A field of a struct: `name: Type`
#[derive(Debug, Clone, Copy)]
pub struct FieldDef<'cst> {
    pub name: StrId,
    pub name_span: TokenSpan,
    view: NodeView<'cst>,
}

impl<'cst> FieldDef<'cst> {
    /// `Ok(None)` of other nodes, `Err(span)` where a part is missing.
    fn try_new(view: NodeView<'cst>) -> Result<Option<Self>, TokenSpan> {
        if view.kind() != NodeKind::FieldDef {
            return Ok(None);
        }
        let name = view.tells_name(accessor::FIELD_DEF_NAME).ok_or(view.span())?;
        let name_span = view.tells_span(accessor::FIELD_DEF_NAME_SPAN).ok_or(view.span())?;
        Ok(Some(Self { name, name_span, view }))
    }

    pub fn type_expr(&self) -> Expr<'cst> {
        Expr::part_unwrap(self.view, accessor::FIELD_DEF_TYPE_EXPR, 1)
    }

    pub fn name_span(&self) -> TokenSpan {
        self.name_span
    }

    pub fn node(&self) -> NodeView<'cst> {
        self.view
    }
}

/// `Type { field1: value1, ... }`
#[derive(Debug, Clone, Copy)]
pub struct StructLit<'cst> {
    view: NodeView<'cst>,
}

impl<'cst> StructLit<'cst> {
    pub fn type_expr(&self) -> Expr<'cst> {
        Expr::part_unwrap(self.view, accessor::STRUCT_LIT_TYPE_EXPR, 0)
    }

    pub fn fields(&self) -> impl Iterator<Item = Result<FieldAssign<'cst>, TokenSpan>> + use<'cst> {
        self.view.children().skip(1).filter_map(|child| FieldAssign::try_new(child).transpose())
    }

    pub fn node(&self) -> NodeView<'cst> {
        self.view
    }
}

/// A field of a struct literal: `name: value`
#[derive(Debug, Clone, Copy)]
pub struct FieldAssign<'cst> {
    pub name: StrId,
    pub name_span: TokenSpan,
    view: NodeView<'cst>,
}

impl<'cst> FieldAssign<'cst> {
    /// `Ok(None)` of other nodes, `Err(span)` where a part is missing.
    fn try_new(view: NodeView<'cst>) -> Result<Option<Self>, TokenSpan> {
        if view.kind() != NodeKind::FieldAssign {
            return Ok(None);
        }
        let name = view.tells_name(accessor::FIELD_ASSIGN_NAME).ok_or(view.span())?;
        let name_span = view.tells_span(accessor::FIELD_ASSIGN_NAME_SPAN).ok_or(view.span())?;
        Ok(Some(Self { name, name_span, view }))
    }

    pub fn value(&self) -> Expr<'cst> {
        Expr::part_unwrap(self.view, accessor::FIELD_ASSIGN_VALUE, 1)
    }

    pub fn name_span(&self) -> TokenSpan {
        self.name_span
    }

    pub fn node(&self) -> NodeView<'cst> {
        self.view
    }
}

/// `tuple { Type1, ... }` or `tuple {}`
#[derive(Debug, Clone, Copy)]
pub struct TupleType<'cst> {
    view: NodeView<'cst>,
}

impl<'cst> TupleType<'cst> {
    pub fn fields(&self) -> impl Iterator<Item = Expr<'cst>> + use<'cst> {
        self.view.children().map(Expr::new_unwrap)
    }

    pub fn node(&self) -> NodeView<'cst> {
        self.view
    }
}

/// `(element1, ...)` or `()`
#[derive(Debug, Clone, Copy)]
pub struct TupleLit<'cst> {
    view: NodeView<'cst>,
}

impl<'cst> TupleLit<'cst> {
    pub fn fields(&self) -> impl Iterator<Item = Expr<'cst>> + use<'cst> {
        self.view.children().map(Expr::new_unwrap)
    }

    pub fn node(&self) -> NodeView<'cst> {
        self.view
    }
}

/// `if condition { body } else if ... else { ... }`
#[derive(Debug, Clone, Copy)]
pub struct IfExpr<'cst> {
    body: BlockExpr<'cst>,
    view: NodeView<'cst>,
}

impl<'cst> IfExpr<'cst> {
    fn new(view: NodeView<'cst>) -> Option<Self> {
        Some(Self { body: BlockExpr::part(view, accessor::IF_EXPR_BODY)?, view })
    }

    pub fn condition(&self) -> Expr<'cst> {
        Expr::part_unwrap(self.view, accessor::IF_EXPR_CONDITION, 0)
    }

    pub fn body(&self) -> BlockExpr<'cst> {
        self.body
    }

    pub fn else_if_branches(
        &self,
    ) -> impl Iterator<Item = Result<ElseIfBranch<'cst>, TokenSpan>> + use<'cst> {
        let list = self.view.child(2).into_iter();
        list.flat_map(NodeView::children)
            .filter_map(|child| ElseIfBranch::try_new(child).transpose())
    }

    pub fn else_body(&self) -> Option<BlockExpr<'cst>> {
        BlockExpr::part(self.view, accessor::IF_EXPR_ELSE_BODY)
    }

    pub fn node(&self) -> NodeView<'cst> {
        self.view
    }
}

/// `else if condition { body }`
#[derive(Debug, Clone, Copy)]
pub struct ElseIfBranch<'cst> {
    body: BlockExpr<'cst>,
    view: NodeView<'cst>,
}

impl<'cst> ElseIfBranch<'cst> {
    /// `Ok(None)` of other nodes, `Err(span)` where a part is missing.
    fn try_new(view: NodeView<'cst>) -> Result<Option<Self>, TokenSpan> {
        if view.kind() != NodeKind::ElseIfBranch {
            return Ok(None);
        }
        let body = BlockExpr::part(view, accessor::ELSE_IF_BRANCH_BODY).ok_or(view.span())?;
        Ok(Some(Self { body, view }))
    }

    pub fn condition(&self) -> Expr<'cst> {
        Expr::part_unwrap(self.view, accessor::ELSE_IF_BRANCH_CONDITION, 0)
    }

    pub fn body(&self) -> BlockExpr<'cst> {
        self.body
    }

    pub fn node(&self) -> NodeView<'cst> {
        self.view
    }
}

/// `match subject { key => body, else binding => body }`
#[derive(Debug, Clone, Copy)]
pub struct MatchExpr<'cst> {
    arm_list: NodeView<'cst>,
    view: NodeView<'cst>,
}

impl<'cst> MatchExpr<'cst> {
    fn new(view: NodeView<'cst>) -> Option<Self> {
        Some(Self { arm_list: view.child(1)?, view })
    }

    pub fn subject(&self) -> Expr<'cst> {
        Expr::part_unwrap(self.view, accessor::MATCH_EXPR_SUBJECT, 0)
    }

    /// `Err(span)` where a part is missing, or another node stands among the arms.
    pub fn arms(&self) -> impl Iterator<Item = Result<MatchArm<'cst>, TokenSpan>> + use<'cst> {
        self.arm_list.children().map(|view| MatchArm::new(view).ok_or(view.span()))
    }

    pub fn node(&self) -> NodeView<'cst> {
        self.view
    }
}

#[derive(Debug, Clone, Copy)]
pub enum MatchArmKind<'cst> {
    Case { key: NodeView<'cst> },
    Fallback { binding: Option<MatchFallbackBinding> },
}

#[derive(Debug, Clone, Copy, PartialEq, Eq)]
pub struct MatchFallbackBinding {
    pub name: StrId,
    pub span: TokenSpan,
}

#[derive(Debug, Clone, Copy)]
pub struct MatchArm<'cst> {
    pub kind: MatchArmKind<'cst>,
    pub body: NodeView<'cst>,
    pub view: NodeView<'cst>,
}

impl<'cst> MatchArm<'cst> {
    fn new(view: NodeView<'cst>) -> Option<Self> {
        match view.kind() {
            NodeKind::MatchArm => Some(Self {
                kind: MatchArmKind::Case { key: view.tells_node(accessor::MATCH_ARM_KEY, 0)? },
                body: view.tells_node(accessor::MATCH_ARM_BODY, 0)?,
                view,
            }),
            NodeKind::MatchFallbackArm { binding } => {
                let binding = if binding { Some(MatchFallbackBinding::new(view)?) } else { None };
                Some(Self {
                    kind: MatchArmKind::Fallback { binding },
                    body: view.tells_node(accessor::MATCH_FALLBACK_ARM_BODY, 0)?,
                    view,
                })
            }
            _ => None,
        }
    }
}

impl MatchFallbackBinding {
    fn new(arm: NodeView<'_>) -> Option<Self> {
        Some(Self {
            name: arm.tells_name(accessor::MATCH_FALLBACK_ARM_BINDING)?,
            span: arm.tells_span(accessor::MATCH_FALLBACK_ARM_BINDING_SPAN)?,
        })
    }
}

/// `fn(params) return_type { body }` or `eager fn(params) return_type { body }`
#[derive(Debug, Clone, Copy)]
pub struct FnDef<'cst> {
    pub eager: bool,
    param_list: NodeView<'cst>,
    body: BlockExpr<'cst>,
    view: NodeView<'cst>,
}

impl<'cst> FnDef<'cst> {
    fn new(eager: bool, view: NodeView<'cst>) -> Option<Self> {
        let body = BlockExpr::part(view, accessor::FN_DEF_BODY)?;
        Some(Self { eager, param_list: view.child(0)?, body, view })
    }

    pub fn param_list_span(&self) -> TokenSpan {
        self.param_list.span()
    }

    pub fn params(&self) -> impl Iterator<Item = Result<Param<'cst>, TokenSpan>> + use<'cst> {
        self.param_list.children().filter_map(|child| Param::try_new(child).transpose())
    }

    pub fn return_type(&self) -> Expr<'cst> {
        Expr::part_unwrap(self.view, accessor::FN_DEF_RETURN_TYPE, 1)
    }

    pub fn body(&self) -> BlockExpr<'cst> {
        self.body
    }

    pub fn node(&self) -> NodeView<'cst> {
        self.view
    }
}

/// `fn name(params) return_type { body }` or `eager fn name(params) return_type { body }`
#[derive(Debug, Clone, Copy)]
pub struct MethodDef<'cst> {
    pub eager: bool,
    pub name: StrId,
    pub name_span: TokenSpan,
    param_list: NodeView<'cst>,
    body: BlockExpr<'cst>,
    view: NodeView<'cst>,
}

impl<'cst> MethodDef<'cst> {
    /// `Ok(None)` of other nodes, `Err(span)` where a part is missing.
    fn try_new(view: NodeView<'cst>) -> Result<Option<Self>, TokenSpan> {
        let NodeKind::MethodDef { eager } = view.kind() else { return Ok(None) };
        let name = view.tells_name(accessor::METHOD_DEF_NAME).ok_or(view.span())?;
        let name_span = view.tells_span(accessor::METHOD_DEF_NAME_SPAN).ok_or(view.span())?;
        let param_list = view.child(1).ok_or(view.span())?;
        let body = BlockExpr::part(view, accessor::METHOD_DEF_BODY).ok_or(view.span())?;
        Ok(Some(Self { eager, name, name_span, param_list, body, view }))
    }

    pub fn param_list_span(&self) -> TokenSpan {
        self.param_list.span()
    }

    pub fn params(&self) -> impl Iterator<Item = Result<Param<'cst>, TokenSpan>> + use<'cst> {
        self.param_list.children().filter_map(|child| Param::try_new(child).transpose())
    }

    pub fn return_type(&self) -> Expr<'cst> {
        Expr::part_unwrap(self.view, accessor::METHOD_DEF_RETURN_TYPE, 2)
    }

    pub fn body(&self) -> BlockExpr<'cst> {
        self.body
    }

    pub fn name_span(&self) -> TokenSpan {
        self.name_span
    }

    pub fn node(&self) -> NodeView<'cst> {
        self.view
    }
}

#[derive(Debug, Clone, Copy)]
pub enum ParamType<'cst> {
    Explicit(Expr<'cst>),
    Any { name: StrId, name_span: TokenSpan },
}

/// `name: Type`, `name: $T`, or `comptime name: Type`
#[derive(Debug, Clone, Copy)]
pub struct Param<'cst> {
    pub name: StrId,
    pub name_span: TokenSpan,
    pub is_comptime: bool,
    view: NodeView<'cst>,
}

impl<'cst> Param<'cst> {
    /// `Ok(None)` of other nodes, `Err(span)` where a part is missing.
    fn try_new(view: NodeView<'cst>) -> Result<Option<Self>, TokenSpan> {
        let Some(is_comptime) = view.tells(accessor::PARAM_IS_COMPTIME, 0) else {
            return Ok(None);
        };
        let name = view.tells_name(accessor::PARAM_NAME).ok_or(view.span())?;
        let name_span = view.tells_span(accessor::PARAM_NAME_SPAN).ok_or(view.span())?;
        Ok(Some(Self { name, name_span, is_comptime: is_comptime == 1, view }))
    }

    pub fn param_type(&self) -> Result<ParamType<'cst>, TokenSpan> {
        let name = self.view.tells_name(accessor::PARAM_TYPE_ANY);
        let name_span = self.view.tells_span(accessor::PARAM_TYPE_ANY_SPAN);
        if let (Some(name), Some(name_span)) = (name, name_span) {
            return Ok(ParamType::Any { name, name_span });
        }
        self.view.child(1).ok_or(self.view.span())?;
        Ok(ParamType::Explicit(Expr::part_unwrap(self.view, accessor::PARAM_TYPE_EXPLICIT, 1)))
    }

    pub fn name_span(&self) -> TokenSpan {
        self.name_span
    }

    pub fn node(&self) -> NodeView<'cst> {
        self.view
    }
}

#[derive(Debug, Clone, Copy)]
pub struct LetStmt<'cst> {
    pub name: StrId,
    pub name_span: TokenSpan,
    pub comptime: bool,
    pub mutable: bool,
    pub span: TokenSpan,
    typed: bool,
    view: NodeView<'cst>,
}

impl<'cst> LetStmt<'cst> {
    /// `Ok(None)` of other nodes, `Err(span)` where a part is missing.
    fn try_new(view: NodeView<'cst>) -> Result<Option<Self>, TokenSpan> {
        let NodeKind::LetStmt { comptime, mutable, typed } = view.kind() else {
            return Ok(None);
        };
        let span = view.span();
        view.tells(accessor::LET_STMT, 0).ok_or(span)?;
        let name = view.tells_name(accessor::LET_STMT_NAME).ok_or(span)?;
        let name_span = view.tells_span(accessor::LET_STMT_NAME_SPAN).ok_or(span)?;
        Ok(Some(Self { name, name_span, comptime, mutable, span, typed, view }))
    }

    pub fn type_expr(&self) -> Option<Expr<'cst>> {
        self.typed.then(|| Expr::part_unwrap(self.view, accessor::LET_STMT_TYPE_EXPR, 1))
    }

    pub fn value(&self) -> Expr<'cst> {
        Expr::part_unwrap(self.view, accessor::LET_STMT_VALUE, 1 + u32::from(self.typed))
    }

    pub fn node(&self) -> NodeView<'cst> {
        self.view
    }
}

/// `return expr;`
#[derive(Debug, Clone, Copy)]
pub struct ReturnStmt<'cst> {
    view: NodeView<'cst>,
}

impl<'cst> ReturnStmt<'cst> {
    pub fn value(&self) -> Expr<'cst> {
        Expr::part_unwrap(self.view, accessor::RETURN_STMT_VALUE, 0)
    }

    pub fn node(&self) -> NodeView<'cst> {
        self.view
    }
}

/// `target = value;`
#[derive(Debug, Clone, Copy)]
pub struct AssignStmt<'cst> {
    view: NodeView<'cst>,
}

impl<'cst> AssignStmt<'cst> {
    pub fn target(&self) -> Expr<'cst> {
        Expr::part_unwrap(self.view, accessor::ASSIGN_STMT_TARGET, 0)
    }

    pub fn value(&self) -> Expr<'cst> {
        Expr::part_unwrap(self.view, accessor::ASSIGN_STMT_VALUE, 1)
    }

    pub fn node(&self) -> NodeView<'cst> {
        self.view
    }
}

/// `while condition { body }` or `inline while condition { body }`
#[derive(Debug, Clone, Copy)]
pub struct WhileStmt<'cst> {
    pub inline: bool,
    body: BlockExpr<'cst>,
    view: NodeView<'cst>,
}

impl<'cst> WhileStmt<'cst> {
    /// `Ok(None)` of other nodes, `Err(span)` where a part is missing.
    fn try_new(view: NodeView<'cst>) -> Result<Option<Self>, TokenSpan> {
        let Some(inline) = view.tells(accessor::WHILE_STMT_INLINE, 0) else {
            return Ok(None);
        };
        let body = BlockExpr::part(view, accessor::WHILE_STMT_BODY).ok_or(view.span())?;
        Ok(Some(Self { inline: inline == 1, body, view }))
    }

    pub fn condition(&self) -> Expr<'cst> {
        Expr::part_unwrap(self.view, accessor::WHILE_STMT_CONDITION, 0)
    }

    pub fn body(&self) -> BlockExpr<'cst> {
        self.body
    }

    pub fn node(&self) -> NodeView<'cst> {
        self.view
    }
}

#[derive(Debug, Clone, Copy)]
pub enum Statement<'cst> {
    Let(LetStmt<'cst>),
    Return(ReturnStmt<'cst>),
    Assign(AssignStmt<'cst>),
    While(WhileStmt<'cst>),
    Expr(Expr<'cst>),
    Error { span: TokenSpan },
}

impl<'cst> Statement<'cst> {
    /// None of nodes that are neither statement nor expression.
    pub fn new(view: NodeView<'cst>) -> Option<Self> {
        Self::try_new(view).unwrap_or_else(|span| Some(Self::Error { span }))
    }

    fn try_new(view: NodeView<'cst>) -> Result<Option<Self>, TokenSpan> {
        if let Some(stmt) = LetStmt::try_new(view)? {
            return Ok(Some(Self::Let(stmt)));
        }
        if let Some(stmt) = WhileStmt::try_new(view)? {
            return Ok(Some(Self::While(stmt)));
        }
        Ok(match view.kind() {
            NodeKind::ReturnStmt => Some(Self::Return(ReturnStmt { view })),
            NodeKind::AssignStmt => Some(Self::Assign(AssignStmt { view })),
            _ => Expr::new(view).map(Self::Expr),
        })
    }

    pub fn span(&self) -> TokenSpan {
        match self {
            Statement::Let(stmt) => stmt.span,
            Statement::Return(stmt) => stmt.node().span(),
            Statement::Assign(stmt) => stmt.node().span(),
            Statement::While(stmt) => stmt.node().span(),
            Statement::Expr(expr) => expr.span(),
            Statement::Error { span } => *span,
        }
    }
}

#[derive(Debug, Clone, Copy)]
pub struct BlockExpr<'cst> {
    view: NodeView<'cst>,
}

impl<'cst> BlockExpr<'cst> {
    /// None of nodes that are no block.
    pub fn new(view: NodeView<'cst>) -> Option<Self> {
        view.tells_node(accessor::BLOCK, 0).map(|view| Self { view })
    }

    /// The block that an accessor tells.
    fn part(view: NodeView<'cst>, which: u32) -> Option<Self> {
        view.tells_node(which, 0).map(|view| Self { view })
    }

    pub fn statements(&self) -> impl Iterator<Item = Statement<'cst>> + use<'cst> {
        let list = self.view.child(0).into_iter();
        list.flat_map(NodeView::children)
            .map(|view| Statement::new(view).unwrap_or(Statement::Error { span: view.span() }))
    }

    pub fn end_expr(&self) -> Option<Expr<'cst>> {
        self.view.child(1).map(|_| Expr::part_unwrap(self.view, accessor::BLOCK_END_EXPR, 1))
    }

    pub fn node(&self) -> NodeView<'cst> {
        self.view
    }
}
