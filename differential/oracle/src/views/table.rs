//! Every accessor of the library beside what the reference tells.

use crate::{
    ast::{
        ElseIfBranch, Expr, FieldAssign, FieldDef, File, Import, ImportSuffix, InitBlock,
        MatchArmKind, MethodDef, Param, ParamType, RunBlock, Statement, TopLevelDef,
    },
    cst::{NodeKind, NodeView},
    lexer::TokenSpan,
    views::{
        node::{By, Node, Seen, Told, number as at, tokens, unless_panic},
        number,
    },
};
use plank_session::StrId;

/// An accessor that tells one thing: a number, or tokens.
pub struct One<A> {
    pub number: u32,
    pub name: &'static str,
    pub told: fn(&Node<'_>) -> Told<A>,
}

/// The accessor that tells the i-th of a list, and the one that counts. An item that is malformed is
/// none.
pub struct List {
    pub number: u32,
    pub name: &'static str,
    pub count: u32,
    pub count_name: &'static str,
    pub told: fn(&Node<'_>) -> Told<Vec<Option<u32>>>,
}

macro_rules! one {
    ($name:ident, $told:expr) => {
        One { number: number::$name, name: stringify!($name), told: $told }
    };
}

macro_rules! list {
    ($name:ident, $count:ident, $told:expr) => {
        List {
            number: number::$name,
            name: stringify!($name),
            count: number::$count,
            count_name: stringify!($count),
            told: $told,
        }
    };
}

/// Of any node.
fn any<A>(answer: Option<A>) -> Told<A> {
    Told { answer, by: By::View }
}

/// Of a node of some kind.
fn of_kind<A>(answer: Option<A>) -> Told<A> {
    let by = if answer.is_some() { By::View } else { By::Kind };
    Told { answer, by }
}

fn flag(is_set: bool) -> Option<u32> {
    Some(u32::from(is_set))
}

pub const NUMBERS: &[One<u32>] = &[
    one!(KIND, |n| any(Some(n.kind_number()))),
    one!(IDENT, |n| any(n.view.ident().and_then(|name| n.name(name)))),
    one!(EXPR, |n| any(Expr::new(n.view).and_then(|expr| n.expr(expr)))),
    one!(STRUCT_BODY, |n| n.struct_def().told(|_| struct_body(n).map(at), || None)),
    one!(PARENT, |n| any(n.parent())),
    one!(ENCLOSING_DECLARATION, |n| any(n.declaration())),
    // Declarations.
    one!(FILE, |n| of_kind(File::new(n.view).map(|_| at(n.view)))),
    one!(INIT_BLOCK, |n| of_kind(InitBlock::new(n.view).map(|found| at(found.body().node())))),
    one!(RUN_BLOCK, |n| of_kind(RunBlock::new(n.view).map(|found| at(found.body().node())))),
    one!(CONST_DECL_NAME, |n| n.const_decl().told(|c| n.name(c.name), || n.child_name(0))),
    one!(CONST_DECL_TYPE, |n| n.const_decl().told(|c| n.expr(c.r#type?), || child_type(n))),
    one!(CONST_DECL_ASSIGN, |n| n.const_decl().told(|c| n.expr(c.assign), || child_value(n))),
    one!(IMPORT_PATH, |n| n.import().told(|_| import_path(n).map(at), || import_path(n).map(at))),
    one!(IMPORT_PUBLIC, |n| n.import().told(|i| flag(i.public), || import_flags(n).0)),
    one!(IMPORT_GLOB, |n| {
        n.import().told(|i| flag(i.suffix == ImportSuffix::All), || import_flags(n).1)
    }),
    one!(IMPORT_AS_DECL_NAME, |n| n.import().told(|i| n.name(alias(&i)?), || import_alias(n))),
    one!(IMPORT_GROUP_PUBLIC, |n| {
        n.import_group().told(|g| flag(g.public), || flag(is_public(n.view.kind())))
    }),
    one!(IMPORT_GROUP_ITEM_NAME, |n| n.import_group_item().always(|i| n.name(i.name()?))),
    one!(IMPORT_GROUP_ITEM_ALIAS, |n| n.import_group_item().always(|i| n.name(i.alias()?))),
    // Statements.
    one!(BLOCK, |n| n.block().always(|b| Some(at(b.node())))),
    one!(BLOCK_END_EXPR, |n| n.block().always(|b| n.expr(b.end_expr()?))),
    one!(LET_STMT, |n| n.let_stmt().told(|_| Some(at(n.view)), || None)),
    one!(LET_STMT_NAME, |n| n.let_stmt().told(|l| n.name(l.name), || n.child_name(0))),
    one!(LET_STMT_COMPTIME, |n| n.let_stmt().told(|l| flag(l.comptime), || flag(let_flags(n).0))),
    one!(LET_STMT_MUTABLE, |n| n.let_stmt().told(|l| flag(l.mutable), || flag(let_flags(n).1))),
    one!(LET_STMT_TYPE_EXPR, |n| n.let_stmt().told(|l| n.expr(l.type_expr()?), || child_type(n))),
    one!(LET_STMT_VALUE, |n| n.let_stmt().told(|l| n.expr(l.value()), || child_value(n))),
    one!(RETURN_STMT_VALUE, |n| n.return_stmt().always(|r| n.expr(r.value()))),
    one!(ASSIGN_STMT_TARGET, |n| n.assign_stmt().always(|a| n.expr(a.target()))),
    one!(ASSIGN_STMT_VALUE, |n| n.assign_stmt().always(|a| n.expr(a.value()))),
    one!(WHILE_STMT, |n| n.while_stmt().told(|w| Some(at(w.node())), || None)),
    one!(WHILE_STMT_INLINE, |n| {
        n.while_stmt().told(|w| flag(w.inline), || flag(n.view.kind() == NodeKind::InlineWhileStmt))
    }),
    one!(WHILE_STMT_CONDITION, |n| {
        n.while_stmt().told(|w| n.expr(w.condition()), || n.child_expr(0))
    }),
    one!(WHILE_STMT_BODY, |n| n.while_stmt().told(|w| block(|| w.body().node()), || None)),
    one!(STATEMENT, |n| any(Statement::new(n.view).and_then(|s| n.statement(s, n.view)))),
    // Functions.
    one!(FN_DEF_EAGER, |n| n.fn_def().told(|f| flag(f.eager), || flag(is_eager(n.view.kind())))),
    one!(FN_DEF_RETURN_TYPE, |n| n.fn_def().told(|f| n.expr(f.return_type()), || n.child_expr(1))),
    one!(FN_DEF_BODY, |n| n.fn_def().told(|f| block(|| f.body().node()), || n.child_block(2))),
    one!(METHOD_DEF_EAGER, |n| {
        n.method_def().told(|m| flag(m.eager), || flag(is_eager(n.view.kind())))
    }),
    one!(METHOD_DEF_NAME, |n| n.method_def().told(|m| n.name(m.name), || n.child_name(0))),
    one!(METHOD_DEF_RETURN_TYPE, |n| {
        n.method_def().told(|m| n.expr(m.return_type()), || n.child_expr(2))
    }),
    one!(METHOD_DEF_BODY, |n| {
        n.method_def().told(|m| block(|| m.body().node()), || n.child_block(3))
    }),
    one!(PARAM_NAME, |n| n.param().told(|p| n.name(p.name), || n.child_name(0))),
    one!(PARAM_IS_COMPTIME, |n| {
        let is_comptime = n.view.kind() == NodeKind::ComptimeParameter;
        n.param().told(|p| flag(p.is_comptime), || flag(is_comptime))
    }),
    one!(PARAM_TYPE_EXPLICIT, |n| {
        n.param().told(|p| n.expr(explicit_type(&p)?), || n.child_expr(1))
    }),
    one!(PARAM_TYPE_ANY, |n| {
        n.param().told(|p| n.name(any_type(&p)?.0), || n.name(child_any_type(n)?.0))
    }),
    // Expressions.
    one!(BINARY_EXPR_OP, |n| n.binary().told(|b| Some(b.op as u32), || Some(n.payload()))),
    one!(BINARY_EXPR_LHS, |n| n.binary().told(|b| n.expr(b.lhs()), || n.child_expr(0))),
    one!(BINARY_EXPR_RHS, |n| n.binary().told(|b| n.expr(b.rhs()), || n.child_expr(2))),
    one!(UNARY_EXPR_OP, |n| n.unary().always(|u| Some(u.op as u32))),
    one!(UNARY_EXPR_OPERAND, |n| n.unary().always(|u| n.expr(u.operand()))),
    one!(CALL_EXPR_CALLEE, |n| n.call().always(|c| n.expr(c.callee()))),
    one!(CALL_EXPR_DIRECT_MEMBER_CALLEE, |n| {
        n.call().always(|c| c.direct_member_callee().map(|member| at(member.node())))
    }),
    one!(MEMBER_EXPR, |n| n.member().told(|m| Some(at(m.node())), || None)),
    one!(MEMBER_EXPR_OBJECT, |n| n.member().told(|m| n.expr(m.object()), || n.child_expr(0))),
    one!(MEMBER_EXPR_MEMBER, |n| n.member().told(|m| n.name(m.member), || n.child_name(1))),
    one!(BOOL_LITERAL_VALUE, |n| literal(n, 32)),
    one!(NUM_LITERAL_ID, |n| literal(n, 33)),
    one!(STRING_LITERAL_VALUE, |n| literal(n, 34)),
    one!(SELF_TYPE, |n| of_literal(n, 35).always(|expr| n.expr(expr))),
    one!(BUILTIN_NAME, |n| literal(n, 37)),
    // Structs.
    one!(STRUCT_DEF_INDEX_EXPR, |n| {
        n.struct_def().told(|s| n.expr(s.index_expr()?), || n.child_expr(0))
    }),
    one!(FIELD_DEF_NAME, |n| n.field_def().told(|f| n.name(f.name), || n.child_name(0))),
    one!(FIELD_DEF_TYPE_EXPR, |n| {
        n.field_def().told(|f| n.expr(f.type_expr()), || n.child_expr(1))
    }),
    one!(STRUCT_LIT_TYPE_EXPR, |n| n.struct_lit().always(|s| n.expr(s.type_expr()))),
    one!(FIELD_ASSIGN_NAME, |n| n.field_assign().told(|f| n.name(f.name), || n.child_name(0))),
    one!(FIELD_ASSIGN_VALUE, |n| {
        n.field_assign().told(|f| n.expr(f.value()), || n.child_expr(1))
    }),
    // Branches.
    one!(IF_EXPR_CONDITION, |n| n
        .conditional()
        .told(|i| n.expr(i.condition()), || n.child_expr(0))),
    one!(IF_EXPR_BODY, |n| n.conditional().told(|i| block(|| i.body().node()), || None)),
    one!(IF_EXPR_ELSE_BODY, |n| {
        n.conditional().told(|i| unless_panic(|| i.else_body())?.map(|b| at(b.node())), || None)
    }),
    one!(ELSE_IF_BRANCH_CONDITION, |n| {
        n.else_if_branch().told(|b| n.expr(b.condition()), || n.child_expr(0))
    }),
    one!(ELSE_IF_BRANCH_BODY, |n| n.else_if_branch().told(|b| block(|| b.body().node()), || None)),
    one!(MATCH_EXPR_SUBJECT, |n| n.selection().told(|m| n.expr(m.subject()), || n.child_expr(0))),
    one!(MATCH_ARM_KEY, |n| n.arm().told(|a| key(&a.kind).map(at), || n.child(0).map(at))),
    one!(MATCH_ARM_BODY, |n| n.arm().told(|a| Some(at(a.body)), || n.child(1).map(at))),
    one!(MATCH_FALLBACK_ARM_BOUND, |n| {
        n.fallback_arm().told(|a| flag(binding(&a.kind).is_some()), || flag(is_bound(n)))
    }),
    one!(MATCH_FALLBACK_ARM_BINDING, |n| {
        let child = || is_bound(n).then(|| n.child_name(0))?;
        n.fallback_arm().told(|a| n.name(binding(&a.kind)?.0), child)
    }),
    one!(MATCH_FALLBACK_ARM_BODY, |n| {
        let child = || n.child(u32::from(is_bound(n))).map(at);
        n.fallback_arm().told(|a| Some(at(a.body)), child)
    }),
];

pub const SPANS: &[One<[u32; 2]>] = &[
    one!(SPAN, |n| any(Some(tokens(n.view.span())))),
    one!(CONST_DECL_SPAN, |n| n.const_decl().told(|c| Some(tokens(c.span())), || n.span())),
    one!(CONST_DECL_NAME_SPAN, |n| {
        n.const_decl().told(|c| Some(tokens(c.name_span())), || n.child_name_span(0))
    }),
    one!(IMPORT_FIRST_PATH_SEGMENT_SPAN, |n| {
        n.import()
            .told(|i| Some(tokens(i.first_path_segment_span())), || first_name(import_path(n)?))
    }),
    one!(IMPORT_LAST_PATH_SEGMENT_SPAN, |n| {
        n.import()
            .told(|i| Some(tokens(i.last_path_segment_span())), || last_name(import_path(n)?, 1))
    }),
    one!(IMPORT_FILE_PATH_SPAN, |n| {
        n.import().told(|i| Some(tokens(i.file_path_span())), || file_path(n))
    }),
    one!(IMPORT_GROUP_FIRST_PATH_SEGMENT_SPAN, |n| {
        let first = || n.child_name_span(0);
        n.import_group().told(|g| Some(tokens(g.first_path_segment_span())), first)
    }),
    one!(IMPORT_GROUP_FILE_PATH_SPAN, |n| {
        n.import_group().told(|g| Some(tokens(g.file_path_span())), || None)
    }),
    one!(IMPORT_GROUP_ITEM_NAME_SPAN, |n| {
        n.import_group_item().always(|i| i.name_span().map(tokens))
    }),
    one!(IMPORT_GROUP_ITEM_SPAN, |n| n.import_group_item().always(|i| Some(tokens(i.span())))),
    one!(LET_STMT_SPAN, |n| n.let_stmt().told(|l| Some(tokens(l.span)), || n.span())),
    one!(LET_STMT_NAME_SPAN, |n| {
        n.let_stmt().told(|l| Some(tokens(l.name_span)), || n.child_name_span(0))
    }),
    one!(FN_DEF_PARAM_LIST_SPAN, |n| {
        n.fn_def().told(|f| Some(tokens(f.param_list_span())), || child_span(n, 0))
    }),
    one!(METHOD_DEF_NAME_SPAN, |n| {
        n.method_def().told(|m| Some(tokens(m.name_span())), || n.child_name_span(0))
    }),
    one!(METHOD_DEF_PARAM_LIST_SPAN, |n| {
        n.method_def().told(|m| Some(tokens(m.param_list_span())), || child_span(n, 1))
    }),
    one!(PARAM_NAME_SPAN, |n| {
        n.param().told(|p| Some(tokens(p.name_span())), || n.child_name_span(0))
    }),
    one!(PARAM_TYPE_ANY_SPAN, |n| {
        let child = || child_any_type(n).map(|(_, span)| tokens(span));
        n.param().told(|p| any_type(&p).map(|(_, span)| tokens(span)), child)
    }),
    one!(BINARY_EXPR_OP_SPAN, |n| { n.binary().told(|b| Some(tokens(b.op_span())), || None) }),
    one!(FIELD_DEF_NAME_SPAN, |n| {
        n.field_def().told(|f| Some(tokens(f.name_span())), || n.child_name_span(0))
    }),
    one!(FIELD_ASSIGN_NAME_SPAN, |n| {
        n.field_assign().told(|f| Some(tokens(f.name_span())), || n.child_name_span(0))
    }),
    one!(MATCH_FALLBACK_ARM_BINDING_SPAN, |n| {
        let child = || is_bound(n).then(|| n.child_name_span(0))?;
        n.fallback_arm().told(|a| binding(&a.kind).map(|(_, span)| tokens(span)), child)
    }),
];

pub const LISTS: &[List] = &[
    list!(CHILD, CHILD_COUNT, |n| any(Some(
        n.view.children().map(|child| Some(at(child))).collect()
    ))),
    list!(FILE_DEF, FILE_DEF_COUNT, |n| of_kind(File::new(n.view).map(|file| file_defs(n, &file)))),
    list!(IMPORT_PATH_SEGMENT, IMPORT_PATH_SEGMENT_COUNT, |n| {
        let path = import_path(n).map(idents);
        let children = path.clone();
        n.import().told(
            |i| Some(segments(n, path?, |names| i.collect_path_segments(names))),
            || Some(numbers(children?)),
        )
    }),
    list!(IMPORT_GROUP_PATH_SEGMENT, IMPORT_GROUP_PATH_SEGMENT_COUNT, |n| {
        n.import_group().told(
            |g| Some(segments(n, idents_before_items(n), |names| g.collect_path_segments(names))),
            || Some(numbers(idents_before_items(n))),
        )
    }),
    list!(IMPORT_GROUP_ITEM, IMPORT_GROUP_ITEM_COUNT, |n| {
        let is_item = |child: &NodeView<'_>| child.kind() == NodeKind::ImportGroupItem;
        let children = || n.view.children().filter(is_item);
        n.import_group().told(
            |g| Some(items(n, children(), g.items(), |item, child| item.span() == child.span())),
            || Some(numbers(children())),
        )
    }),
    list!(BLOCK_STATEMENT, BLOCK_STATEMENT_COUNT, |n| {
        n.block().always(|b| {
            let children = n.child(0)?.children();
            let is_same =
                |item: Statement<'_>, child: NodeView<'_>| is_statement_of(n, item, child);
            Some(items(n, children, b.statements(), is_same))
        })
    }),
    list!(FN_DEF_PARAM, FN_DEF_PARAM_COUNT, |n| {
        n.fn_def().told(|f| params(n, 0, f.params()), || n.grandchildren(0, is_param))
    }),
    list!(METHOD_DEF_PARAM, METHOD_DEF_PARAM_COUNT, |n| {
        n.method_def().told(|m| params(n, 1, m.params()), || n.grandchildren(1, is_param))
    }),
    list!(CALL_EXPR_ARG, CALL_EXPR_ARG_COUNT, |n| {
        n.call().always(|c| Some(c.args().map(|arg| n.expr(arg)).collect()))
    }),
    list!(STRUCT_DEF_FIELD, STRUCT_DEF_FIELD_COUNT, |n| {
        n.struct_def().told(|s| fields(n, s.fields()), || None)
    }),
    list!(STRUCT_DEF_METHOD, STRUCT_DEF_METHOD_COUNT, |n| {
        n.struct_def().told(|s| methods(n, s.methods()), || None)
    }),
    list!(STRUCT_LIT_FIELD, STRUCT_LIT_FIELD_COUNT, |n| {
        n.struct_lit().always(|s| n.child(0).map(|_| field_assigns(n, s.fields())))
    }),
    list!(TUPLE_TYPE_FIELD, TUPLE_TYPE_FIELD_COUNT, |n| {
        n.tuple_type().always(|t| Some(t.fields().map(|field| n.expr(field)).collect()))
    }),
    list!(TUPLE_LIT_FIELD, TUPLE_LIT_FIELD_COUNT, |n| {
        n.tuple_lit().always(|t| Some(t.fields().map(|field| n.expr(field)).collect()))
    }),
    list!(IF_EXPR_ELSE_IF_BRANCH, IF_EXPR_ELSE_IF_BRANCH_COUNT, |n| {
        n.conditional().told(|i| branches(n, i.else_if_branches()), || None)
    }),
    list!(MATCH_EXPR_ARM, MATCH_EXPR_ARM_COUNT, |n| {
        n.selection().told(
            |m| {
                let arms = unless_panic(|| m.arms().map(|arm| Some(at(arm.view))).collect());
                arms.or_else(|| n.grandchildren(1, |_| true))
            },
            || None,
        )
    }),
];

/// A block, or a panic where it is none.
fn block<'t>(node: impl FnOnce() -> NodeView<'t>) -> Option<u32> {
    unless_panic(node).map(at)
}

fn child_span(n: &Node<'_>, i: u32) -> Option<[u32; 2]> {
    n.child(i).map(|child| tokens(child.span()))
}

// Constants and lets.

fn is_typed(n: &Node<'_>) -> bool {
    matches!(
        n.view.kind(),
        NodeKind::ConstDecl { typed: true } | NodeKind::LetStmt { typed: true, .. }
    )
}

fn child_type(n: &Node<'_>) -> Option<u32> {
    is_typed(n).then(|| n.child_expr(1))?
}

fn child_value(n: &Node<'_>) -> Option<u32> {
    n.child_expr(1 + u32::from(is_typed(n)))
}

fn let_flags(n: &Node<'_>) -> (bool, bool) {
    match n.view.kind() {
        NodeKind::LetStmt { comptime, mutable, .. } => (comptime, mutable),
        _ => (false, false),
    }
}

// Files and imports.

/// Constants and errors have no node: their tokens must be the child's.
fn file_defs<'t>(n: &Node<'t>, file: &File<'t>) -> Vec<Option<u32>> {
    items(n, n.view.children(), file.iter_defs(), |def, child| match def {
        TopLevelDef::Init(found) => found.node().idx() == child.idx(),
        TopLevelDef::Run(found) => found.node().idx() == child.idx(),
        TopLevelDef::Import(found) => found.node().idx() == child.idx(),
        TopLevelDef::ImportGroup(found) => found.node().idx() == child.idx(),
        TopLevelDef::Const(found) => found.span() == child.span(),
        TopLevelDef::Error { span } => span == child.span(),
    })
}

/// The node itself, or the first child where there is an alias.
fn import_path<'t>(n: &Node<'t>) -> Option<NodeView<'t>> {
    match n.view.kind() {
        NodeKind::ImportDecl { .. } => Some(n.view),
        NodeKind::ImportAsDecl { .. } => n.child(0),
        _ => None,
    }
}

fn import_flags(n: &Node<'_>) -> (Option<u32>, Option<u32>) {
    match n.view.kind() {
        NodeKind::ImportDecl { public, glob } => (flag(public), flag(glob)),
        NodeKind::ImportAsDecl { public } => (flag(public), flag(false)),
        _ => (None, None),
    }
}

fn alias(import: &Import<'_>) -> Option<StrId> {
    match import.suffix {
        ImportSuffix::As(name) => name,
        ImportSuffix::All => None,
    }
}

fn import_alias(n: &Node<'_>) -> Option<u32> {
    let has_alias = matches!(n.view.kind(), NodeKind::ImportAsDecl { .. });
    has_alias.then(|| n.child_name(1))?
}

fn is_public(kind: NodeKind) -> bool {
    matches!(kind, NodeKind::ImportGroupDecl { public: true })
}

fn idents<'t>(path: NodeView<'t>) -> Vec<NodeView<'t>> {
    path.children().filter(|child| child.ident().is_some()).collect()
}

fn idents_before_items<'t>(n: &Node<'t>) -> Vec<NodeView<'t>> {
    let before = n.view.children().take_while(|child| child.kind() != NodeKind::ImportGroupItem);
    before.filter(|child| child.ident().is_some()).collect()
}

fn numbers<'t>(nodes: impl IntoIterator<Item = NodeView<'t>>) -> Vec<Option<u32>> {
    nodes.into_iter().map(|node| Some(at(node))).collect()
}

/// The reference collects names; they must be those of these children.
fn segments<'t>(
    n: &Node<'t>,
    children: Vec<NodeView<'t>>,
    collect: impl FnOnce(&mut Vec<StrId>),
) -> Vec<Option<u32>> {
    let mut names = Vec::new();
    collect(&mut names);
    items(n, children, names, |name, child| child.ident() == Some(name))
}

fn first_name(path: NodeView<'_>) -> Option<[u32; 2]> {
    path.child(0).filter(|child| child.ident().is_some()).map(|child| tokens(child.span()))
}

/// Of the names of a path the last, or the one before it; of one name that one.
fn last_name(path: NodeView<'_>, back: usize) -> Option<[u32; 2]> {
    let names = idents(path);
    names.get(names.len().saturating_sub(back)).map(|child| tokens(child.span()))
}

fn file_path(n: &Node<'_>) -> Option<[u32; 2]> {
    let path = import_path(n)?;
    let back = if import_flags(n).1 == Some(1) { 1 } else { 2 };
    Some([first_name(path)?[0], last_name(path, back)?[1]])
}

// Items of lists.

/// The children, each beside the item that the reference makes of it. An item too many or too few is
/// no child's.
fn items<'t, I>(
    n: &Node<'t>,
    children: impl IntoIterator<Item = NodeView<'t>>,
    made: impl IntoIterator<Item = I>,
    is_made_of: impl Fn(I, NodeView<'t>) -> bool,
) -> Vec<Option<u32>> {
    let mut children = children.into_iter();
    let mut all: Vec<_> = made
        .into_iter()
        .map(|item| match children.next() {
            Some(child) => n.item(child, is_made_of(item, child)),
            None => n.item(n.view, false),
        })
        .collect();
    all.extend(children.map(|child| n.item(child, false)));
    all
}

fn is_statement_of<'t>(n: &Node<'t>, item: Statement<'t>, child: NodeView<'t>) -> bool {
    let alone = Statement::new(child).unwrap_or(Statement::Error { span: child.span() });
    n.statement(item, child) == n.statement(alone, child) && item.span() == alone.span()
}

fn is_param(kind: NodeKind) -> bool {
    matches!(kind, NodeKind::Parameter | NodeKind::ComptimeParameter)
}

/// The items that are whole by their nodes, the others by their tokens.
macro_rules! whole_or_not {
    ($name:ident, $view:ident) => {
        fn $name(item: Result<$view<'_>, TokenSpan>, child: NodeView<'_>) -> bool {
            match item {
                Ok(found) => found.node().idx() == child.idx(),
                Err(span) => span == child.span(),
            }
        }
    };
}

whole_or_not!(is_param_of, Param);
whole_or_not!(is_field_of, FieldDef);
whole_or_not!(is_method_of, MethodDef);
whole_or_not!(is_field_assign_of, FieldAssign);
whole_or_not!(is_branch_of, ElseIfBranch);

fn params<'t>(
    n: &Node<'t>,
    list: u32,
    made: impl Iterator<Item = Result<Param<'t>, TokenSpan>>,
) -> Option<Vec<Option<u32>>> {
    let children = n.child(list)?.children().filter(|child| is_param(child.kind()));
    Some(items(n, children, made, is_param_of))
}

fn struct_body<'t>(n: &Node<'t>) -> Option<NodeView<'t>> {
    let mut first = n.view.children().take(2);
    first.find(|child| child.kind() == NodeKind::StructBody)
}

fn fields<'t>(
    n: &Node<'t>,
    made: impl Iterator<Item = Result<FieldDef<'t>, TokenSpan>>,
) -> Option<Vec<Option<u32>>> {
    let children = struct_body(n)?.children().filter(|child| child.kind() == NodeKind::FieldDef);
    Some(items(n, children, made, is_field_of))
}

fn methods<'t>(
    n: &Node<'t>,
    made: impl Iterator<Item = Result<MethodDef<'t>, TokenSpan>>,
) -> Option<Vec<Option<u32>>> {
    let is_method = |child: &NodeView<'_>| matches!(child.kind(), NodeKind::MethodDef { .. });
    Some(items(n, struct_body(n)?.children().filter(is_method), made, is_method_of))
}

fn field_assigns<'t>(
    n: &Node<'t>,
    made: impl Iterator<Item = Result<FieldAssign<'t>, TokenSpan>>,
) -> Vec<Option<u32>> {
    let children = n.view.children().skip(1).filter(|child| child.kind() == NodeKind::FieldAssign);
    items(n, children, made, is_field_assign_of)
}

fn branches<'t>(
    n: &Node<'t>,
    made: impl Iterator<Item = Result<ElseIfBranch<'t>, TokenSpan>>,
) -> Option<Vec<Option<u32>>> {
    let children = n.child(2)?.children().filter(|child| child.kind() == NodeKind::ElseIfBranch);
    Some(items(n, children, made, is_branch_of))
}

// Functions.

fn is_eager(kind: NodeKind) -> bool {
    matches!(kind, NodeKind::FnDef { eager: true } | NodeKind::MethodDef { eager: true })
}

fn explicit_type<'t>(param: &Param<'t>) -> Option<Expr<'t>> {
    match param.param_type() {
        Ok(ParamType::Explicit(expr)) => Some(expr),
        _ => None,
    }
}

fn any_type(param: &Param<'_>) -> Option<(StrId, TokenSpan)> {
    match param.param_type() {
        Ok(ParamType::Any { name, name_span }) => Some((name, name_span)),
        _ => None,
    }
}

fn child_any_type(n: &Node<'_>) -> Option<(StrId, TokenSpan)> {
    let child = n.child(1)?;
    match child.kind() {
        NodeKind::ParamAnyType { ident } => Some((ident, child.span())),
        _ => None,
    }
}

// Literals.

fn of_literal<'t>(n: &Node<'t>, kind: u32) -> Seen<Expr<'t>> {
    if n.kind_number() == kind { n.literal() } else { Seen::OtherKind }
}

fn literal(n: &Node<'_>, kind: u32) -> Told<u32> {
    of_literal(n, kind).always(|expr| n.literal_payload(expr))
}

// Arms.

fn key<'t>(kind: &MatchArmKind<'t>) -> Option<NodeView<'t>> {
    match kind {
        MatchArmKind::Case { key } => Some(*key),
        MatchArmKind::Fallback { .. } => None,
    }
}

fn binding(kind: &MatchArmKind<'_>) -> Option<(StrId, TokenSpan)> {
    match kind {
        MatchArmKind::Fallback { binding: Some(found) } => Some((found.name, found.span)),
        _ => None,
    }
}

fn is_bound(n: &Node<'_>) -> bool {
    n.view.kind() == NodeKind::MatchFallbackArm { binding: true }
}
