//! Everything that the views of a script say, as one text. This file is compiled twice: against the
//! Plank parser's views and against those of the crate `plank`.

use super::{arm, number, parser};
use parser::{ast::*, cst::NodeView, lexer::TokenSpan};

pub fn file(file: File<'_>) -> String {
    file.iter_defs().map(|def| top_level_def(def) + "\n").collect()
}

fn span(span: TokenSpan) -> String {
    format!("{}-{}", number(span.start), number(span.end))
}

/// What is said, or the span of an error.
fn said<T>(part: Result<T, TokenSpan>, say: impl Fn(T) -> String) -> String {
    part.map_or_else(|at| format!("error@{}", span(at)), say)
}

fn maybe<T>(part: Option<T>, say: impl Fn(T) -> String) -> String {
    part.map_or("-".to_string(), say)
}

fn list(parts: impl Iterator<Item = String>) -> String {
    format!("[{}]", parts.collect::<Vec<_>>().join(" "))
}

fn top_level_def(def: TopLevelDef<'_>) -> String {
    match def {
        TopLevelDef::Init(init) => format!("init {} {}", node(init.node()), block(init.body())),
        TopLevelDef::Run(run) => format!("run {} {}", node(run.node()), block(run.body())),
        TopLevelDef::Const(decl) => {
            let spans = [decl.name_span, decl.name_span(), decl.span()].map(span).join(" ");
            format!("const {spans} {} {}", maybe(decl.r#type, expr), expr(decl.assign))
        }
        TopLevelDef::Import(decl) => import(decl),
        TopLevelDef::ImportGroup(group) => import_group(group),
        TopLevelDef::Error { span: at } => format!("error@{}", span(at)),
    }
}

fn import(import: Import<'_>) -> String {
    let mut path = Vec::new();
    import.collect_path_segments(&mut path);
    let suffix = match import.suffix {
        ImportSuffix::As(None) => "plain",
        ImportSuffix::As(Some(_)) => "as",
        ImportSuffix::All => "all",
    };
    let spans = [
        import.first_path_segment_span(),
        import.last_path_segment_span(),
        import.file_path_span(),
    ];
    let spans = spans.map(span).join(" ");
    format!("import {} {} {suffix} {} {spans}", node(import.node()), import.public, path.len())
}

fn import_group(group: ImportGroup<'_>) -> String {
    let mut path = Vec::new();
    group.collect_path_segments(&mut path);
    let items = group.items().map(|item| {
        let names = [item.name().is_some(), item.alias().is_some()];
        format!("{names:?} {} {}", maybe(item.name_span(), span), span(item.span()))
    });
    let items = list(items);
    let spans = [group.first_path_segment_span(), group.file_path_span()].map(span).join(" ");
    format!("group {} {} {} {spans} {items}", node(group.node()), group.public, path.len())
}

fn node(view: NodeView<'_>) -> String {
    format!("{}#{}", number(view.idx()), span(view.span()))
}

fn expr(this: Expr<'_>) -> String {
    let text = match this {
        Expr::Binary(e) => {
            format!("{:?} {} {} {}", e.op, span(e.op_span()), expr(e.lhs()), expr(e.rhs()))
        }
        Expr::Unary(e) => format!("{:?} {}", e.op, expr(e.operand())),
        Expr::Call(e) => {
            let direct = maybe(e.direct_member_callee(), |member| node(member.node()));
            format!("call {} {} {direct}", expr(e.callee()), list(e.args().map(expr)))
        }
        Expr::Member(e) => format!("member {}", expr(e.object())),
        Expr::StructDef(e) => {
            let fields = list(e.fields().map(|field| said(field, field_def)));
            let methods = list(e.methods().map(|method| said(method, method_def)));
            format!("struct {} {fields} {methods}", maybe(e.index_expr(), expr))
        }
        Expr::StructLit(e) => {
            let fields = list(e.fields().map(|field| said(field, field_assign)));
            format!("literal {} {fields}", expr(e.type_expr()))
        }
        Expr::TupleType(e) => format!("types {}", list(e.fields().map(expr))),
        Expr::TupleLit(e) => format!("tuple {}", list(e.fields().map(expr))),
        Expr::If(e) => {
            let branches = e.else_if_branches().map(|branch| {
                said(branch, |b| format!("{} {}", expr(b.condition()), block(b.body())))
            });
            let (branches, last) = (list(branches), maybe(e.else_body(), block));
            format!("if {} {} {branches} {last}", expr(e.condition()), block(e.body()))
        }
        Expr::Match(e) => {
            let arms = e.arms().map(|part| said(arm(part), match_arm));
            format!("match {} {}", expr(e.subject()), list(arms))
        }
        Expr::FnDef(e) => {
            let params = list(e.params().map(|part| said(part, param)));
            let list_span = span(e.param_list_span());
            let body = block(e.body());
            format!("fn {} {list_span} {params} {} {body}", e.eager, expr(e.return_type()))
        }
        Expr::Block(e) => format!("block {}", block(e)),
        Expr::ComptimeBlock(e) => format!("comptime {}", block(e)),
        Expr::BoolLiteral { value, .. } => value.to_string(),
        Expr::NumLiteral { .. } => "number".to_string(),
        Expr::StringLiteral { .. } => "string".to_string(),
        Expr::SelfType { .. } => "self".to_string(),
        Expr::Ident { .. } => "name".to_string(),
        Expr::BuiltinName { .. } => "builtin".to_string(),
        Expr::Error { .. } => "error".to_string(),
    };
    format!("({text})@{}", span(this.span()))
}

fn field_def(field: FieldDef<'_>) -> String {
    let spans = [field.name_span, field.name_span()].map(span).join(" ");
    format!("{} {spans} {}", node(field.node()), expr(field.type_expr()))
}

fn field_assign(field: FieldAssign<'_>) -> String {
    let spans = [field.name_span, field.name_span()].map(span).join(" ");
    format!("{} {spans} {}", node(field.node()), expr(field.value()))
}

fn method_def(method: MethodDef<'_>) -> String {
    let params = list(method.params().map(|part| said(part, param)));
    let spans = [method.name_span, method.name_span(), method.param_list_span()].map(span);
    let body = block(method.body());
    let result = expr(method.return_type());
    format!("{} {} {spans:?} {params} {result} {body}", node(method.node()), method.eager)
}

fn param(param: Param<'_>) -> String {
    let ty = said(param.param_type(), |ty| match ty {
        ParamType::Explicit(ty) => expr(ty),
        ParamType::Any { name_span, .. } => format!("any@{}", span(name_span)),
    });
    let spans = [param.name_span, param.name_span()].map(span).join(" ");
    format!("{} {} {spans} {ty}", node(param.node()), param.is_comptime)
}

fn match_arm(arm: MatchArm<'_>) -> String {
    let key = match arm.kind {
        MatchArmKind::Case { key } => expr(Expr::new_unwrap(key)),
        MatchArmKind::Fallback { binding } => maybe(binding, |binding| span(binding.span)),
    };
    format!("{} {key} {}", node(arm.view), expr(Expr::new_unwrap(arm.body)))
}

fn block(block: BlockExpr<'_>) -> String {
    let statements =
        block.statements().map(|part| format!("{}@{}", statement(part), span(part.span())));
    format!("{} {} {}", node(block.node()), list(statements), maybe(block.end_expr(), expr))
}

fn statement(statement: Statement<'_>) -> String {
    match statement {
        Statement::Let(stmt) => {
            let spans = [stmt.name_span, stmt.span].map(span).join(" ");
            let flags = [stmt.comptime, stmt.mutable];
            format!(
                "let {flags:?} {spans} {} {}",
                maybe(stmt.type_expr(), expr),
                expr(stmt.value())
            )
        }
        Statement::Return(stmt) => format!("return {} {}", node(stmt.node()), expr(stmt.value())),
        Statement::Assign(stmt) => {
            format!("assign {} {} {}", node(stmt.node()), expr(stmt.target()), expr(stmt.value()))
        }
        Statement::While(stmt) => {
            let body = block(stmt.body());
            format!("while {} {} {body}", stmt.inline, expr(stmt.condition()))
        }
        Statement::Expr(part) => expr(part),
        Statement::Error { span: at } => format!("error@{}", span(at)),
    }
}
