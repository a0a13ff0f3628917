//! Prints each constant's name and the shape of its value, operators before their operands.
//!
//! `constants [FILE]`, standard input without FILE.

use plank::{
    ConcreteSyntaxTree,
    ast::{
        BlockExpr, Expr, FnDef, IfExpr, MatchArmKind, MatchExpr, MethodDef, Param, ParamType,
        Statement, StructDef, TopLevelDef,
    },
    cst::{NumLitId, StrId, UnaryOp},
    lexer::TokenSpan,
};
use std::{env, error::Error, fs, io, io::Read, thread};

fn main() -> Result<(), Box<dyn Error>> {
    let mut text = Vec::new();
    match env::args_os().nth(1) {
        Some(path) => text = fs::read(path)?,
        None => drop(io::stdin().read_to_end(&mut text)?),
    }
    let tree = plank::read(&text)?;
    for report in tree.reports() {
        println!("{report}");
    }
    // A row of 30,000 `+` is a tree that is 30,000 deep on its left.
    let printing = thread::Builder::new().stack_size(1 << 28).spawn(move || print_constants(&tree));
    printing?.join().expect("printing ends");
    Ok(())
}

fn print_constants(tree: &ConcreteSyntaxTree) {
    for def in tree.as_file().iter_defs() {
        if let TopLevelDef::Const(decl) = def {
            println!("{} = {}", tree.name(decl.name), Shape(tree).expr(decl.assign));
        }
    }
}

/// Writes the shapes of a tree's parts.
pub struct Shape<'cst>(pub &'cst ConcreteSyntaxTree);

impl<'cst> Shape<'cst> {
    pub fn expr(&self, expr: Expr<'cst>) -> String {
        match expr {
            Expr::Binary(e) => self.row([
                self.0.text(e.op_span()).to_string(),
                self.expr(e.lhs()),
                self.expr(e.rhs()),
            ]),
            Expr::Unary(e) => self.row([unary(e.op).to_string(), self.expr(e.operand())]),
            Expr::Call(e) => self.listed("call", [e.callee()].into_iter().chain(e.args())),
            Expr::Member(e) => {
                self.row([".".to_string(), self.expr(e.object()), self.name(e.member)])
            }
            Expr::StructDef(e) => self.struct_def(e),
            Expr::StructLit(e) => {
                let value = |field: Result<plank::ast::FieldAssign<'cst>, TokenSpan>| match field {
                    Ok(field) => format!("{}={}", self.name(field.name), self.expr(field.value())),
                    Err(_) => "error".to_string(),
                };
                let head = ["lit".to_string(), self.expr(e.type_expr())];
                self.row(head.into_iter().chain(e.fields().map(value)))
            }
            Expr::TupleType(e) => self.listed("tuple-type", e.fields()),
            Expr::TupleLit(e) => self.listed("tuple", e.fields()),
            Expr::If(e) => self.if_expr(e),
            Expr::Match(e) => self.match_expr(e),
            Expr::FnDef(e) => self.fn_def(e),
            Expr::Block(e) => self.block(e),
            Expr::ComptimeBlock(e) => self.row(["comptime".to_string(), self.block(e)]),
            Expr::BoolLiteral { value, .. } => value.to_string(),
            Expr::NumLiteral { id, .. } => self.number(id),
            Expr::StringLiteral { value, .. } => {
                let bytes = self.0.bytes(value).unwrap_or_default();
                format!("\"{}\"", bytes.escape_ascii())
            }
            Expr::SelfType { .. } => "Self".to_string(),
            Expr::Ident { name, .. } | Expr::BuiltinName { name, .. } => self.name(name),
            Expr::Error { .. } => "error".to_string(),
        }
    }

    fn name(&self, name: StrId) -> String {
        self.0.name(name).to_string()
    }

    fn row(&self, parts: impl IntoIterator<Item = String>) -> String {
        let parts: Vec<String> = parts.into_iter().collect();
        format!("({})", parts.join(" "))
    }

    fn listed(&self, head: &str, exprs: impl Iterator<Item = Expr<'cst>>) -> String {
        let head = [head.to_string()].into_iter();
        self.row(head.chain(exprs.map(|expr| self.expr(expr))))
    }

    /// One limb in decimal, more in hexadecimal.
    fn number(&self, id: NumLitId) -> String {
        match self.0.num_lit_limbs(id).unwrap_or_default() {
            [] => "0".to_string(),
            [limb] => limb.to_string(),
            [rest @ .., top] => {
                let rest: String = rest.iter().rev().map(|limb| format!("{limb:08x}")).collect();
                format!("0x{top:x}{rest}")
            }
        }
    }

    fn struct_def(&self, e: StructDef<'cst>) -> String {
        let index = e.index_expr().map(|index| self.expr(index));
        let fields = e.fields().map(|field| match field {
            Ok(field) => format!("{}:{}", self.name(field.name), self.expr(field.type_expr())),
            Err(_) => "error".to_string(),
        });
        let methods = e.methods().map(|method| match method {
            Ok(method) => self.method(method),
            Err(_) => "error".to_string(),
        });
        let head = ["struct".to_string()].into_iter().chain(index);
        self.row(head.chain(fields).chain(methods))
    }

    fn method(&self, e: MethodDef<'cst>) -> String {
        let head = [if e.eager { "eager-fn" } else { "fn" }.to_string(), self.name(e.name)];
        let params = e.params().map(|param| self.param(param));
        let rest = [self.expr(e.return_type()), self.block(e.body())];
        self.row(head.into_iter().chain(params).chain(rest))
    }

    fn fn_def(&self, e: FnDef<'cst>) -> String {
        let head = [if e.eager { "eager-fn" } else { "fn" }.to_string()];
        let params = e.params().map(|param| self.param(param));
        let rest = [self.expr(e.return_type()), self.block(e.body())];
        self.row(head.into_iter().chain(params).chain(rest))
    }

    fn param(&self, param: Result<Param<'cst>, TokenSpan>) -> String {
        let Ok(param) = param else { return "error".to_string() };
        let name = if param.is_comptime { "comptime-" } else { "" }.to_string();
        let ty = match param.param_type() {
            Ok(ParamType::Explicit(ty)) => self.expr(ty),
            Ok(ParamType::Any { name, .. }) => format!("${}", self.name(name)),
            Err(_) => "error".to_string(),
        };
        format!("{name}{}:{ty}", self.name(param.name))
    }

    fn if_expr(&self, e: IfExpr<'cst>) -> String {
        let head = ["if".to_string(), self.expr(e.condition()), self.block(e.body())];
        let branches = e.else_if_branches().map(|branch| match branch {
            Ok(branch) => {
                format!("{} {}", self.expr(branch.condition()), self.block(branch.body()))
            }
            Err(_) => "error".to_string(),
        });
        self.row(head.into_iter().chain(branches).chain(e.else_body().map(|body| self.block(body))))
    }

    fn match_expr(&self, e: MatchExpr<'cst>) -> String {
        let head = ["match".to_string(), self.expr(e.subject())];
        let arms = e.arms().map(|arm| {
            let Ok(arm) = arm else { return "error".to_string() };
            let key = match arm.kind {
                MatchArmKind::Case { key } => self.expr(Expr::new_unwrap(key)),
                MatchArmKind::Fallback { binding: Some(binding) } => {
                    format!("else-{}", self.name(binding.name))
                }
                MatchArmKind::Fallback { binding: None } => "else".to_string(),
            };
            format!("{key}=>{}", self.expr(Expr::new_unwrap(arm.body)))
        });
        self.row(head.into_iter().chain(arms))
    }

    pub fn block(&self, e: BlockExpr<'cst>) -> String {
        let mut parts: Vec<String> =
            e.statements().map(|stmt| format!("{};", self.statement(stmt))).collect();
        parts.extend(e.end_expr().map(|end| self.expr(end)));
        format!("{{{}}}", parts.join(" "))
    }

    fn statement(&self, stmt: Statement<'cst>) -> String {
        match stmt {
            Statement::Let(stmt) => {
                let flags = [(stmt.comptime, "comptime-"), (stmt.mutable, "mut-")];
                let flags = flags.iter().filter(|flag| flag.0).map(|flag| flag.1);
                let ty = stmt.type_expr().map_or(String::new(), |ty| format!(":{}", self.expr(ty)));
                let name = self.name(stmt.name);
                format!("let {}{name}{ty}={}", flags.collect::<String>(), self.expr(stmt.value()))
            }
            Statement::Return(stmt) => format!("return {}", self.expr(stmt.value())),
            Statement::Assign(stmt) => {
                format!("{}={}", self.expr(stmt.target()), self.expr(stmt.value()))
            }
            Statement::While(stmt) => {
                let head = if stmt.inline { "inline-while" } else { "while" };
                format!("{head} {} {}", self.expr(stmt.condition()), self.block(stmt.body()))
            }
            Statement::Expr(expr) => self.expr(expr),
            Statement::Error { .. } => "error".to_string(),
        }
    }
}

fn unary(op: UnaryOp) -> char {
    match op {
        UnaryOp::Minus => '-',
        UnaryOp::Bang => '!',
        UnaryOp::Tilde => '~',
    }
}
