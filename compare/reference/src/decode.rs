//! From the rows of a lawful block to the stand-in tree. A row at a place where its kind has no part is kept as a
//! [`Part`] that is only walked over.

use crate::swc::ast::*;
use blocks::{Kind, Row, Rows};

/// The program in the rows of a lawful block.
pub fn program(rows: Rows) -> Program {
    let decoder = Decoder { rows };
    match rows.row(0).mark {
        0 => Program::Module(Module { body: decoder.each(rows.children(0), Decoder::module_item) }),
        _ => Program::Script(Script { body: decoder.each(rows.children(0), Decoder::stmt) }),
    }
}

#[derive(Clone, Copy)]
struct Decoder<'a> {
    rows: Rows<'a>,
}

/// What holds a text that is UTF-8.
fn text<'a>(row: &Row<'a>) -> &'a str {
    std::str::from_utf8(row.text).expect("the block is lawful")
}

impl<'a> Decoder<'a> {
    fn row(self, at: u32) -> Row<'a> {
        self.rows.row(at)
    }

    fn children(self, at: u32) -> impl Iterator<Item = u32> {
        self.rows.children(at)
    }

    fn child(self, at: u32, number: usize) -> u32 {
        self.children(at).nth(number).expect("the block is lawful")
    }

    fn each<T>(self, rows: impl Iterator<Item = u32>, made: fn(Self, u32) -> T) -> Vec<T> {
        rows.map(|row| made(self, row)).collect()
    }

    fn parts(self, rows: impl Iterator<Item = u32>) -> Vec<Part> {
        self.each(rows, Decoder::part)
    }

    // Texts and names

    fn ident(self, at: u32) -> Ident {
        Ident { sym: text(&self.row(at)).into() }
    }

    fn binding_ident(self, at: u32) -> BindingIdent {
        BindingIdent { id: self.ident(at) }
    }

    fn ident_name(self, at: u32) -> IdentName {
        IdentName { sym: text(&self.row(at)).into() }
    }

    fn str(self, at: u32) -> Str {
        Str { value: self.row(at).text.into() }
    }

    fn number(self, at: u32) -> Number {
        Number { value: if self.row(at).mark == 1 { 0.0 } else { 1.0 } }
    }

    fn computed(self, at: u32) -> ComputedPropName {
        ComputedPropName { expr: self.boxed_expr(self.child(at, 0)) }
    }

    fn key(self, at: u32) -> PropName {
        match self.row(at).kind {
            Kind::Ident => PropName::Ident(self.ident_name(at)),
            Kind::Str => PropName::Str(self.str(at)),
            Kind::Num => PropName::Num(self.number(at)),
            Kind::Computed => PropName::Computed(self.computed(at)),
            _ => PropName::BigInt(Lit::Other),
        }
    }

    // Expressions

    fn expr(self, at: u32) -> Expr {
        match self.row(at).kind {
            Kind::Ident => Expr::Ident(self.ident(at)),
            Kind::Str => Expr::Lit(Lit::Str(self.str(at))),
            Kind::Num => Expr::Lit(Lit::Num(self.number(at))),
            Kind::OtherLit => Expr::Lit(Lit::Other),
            Kind::Call => Expr::Call(self.call(at)),
            Kind::Member => Expr::Member(self.member(at)),
            Kind::Paren => Expr::Paren(ParenExpr { expr: self.boxed_expr(self.child(at, 0)) }),
            Kind::Seq => Expr::Seq(SeqExpr { exprs: self.each(self.children(at), Decoder::boxed_expr) }),
            Kind::Assign => Expr::Assign(self.assign(at)),
            Kind::Object => Expr::Object(ObjectLit { props: self.each(self.children(at), Decoder::property) }),
            Kind::FnExpr => Expr::Fn(self.fn_expr(at)),
            Kind::Arrow => Expr::Arrow(self.arrow(at)),
            _ => Expr::Other(Box::new(self.part(at))),
        }
    }

    fn boxed_expr(self, at: u32) -> Box<Expr> {
        Box::new(self.expr(at))
    }

    fn call(self, at: u32) -> CallExpr {
        let mut children = self.children(at);
        let callee = Callee::Expr(self.boxed_expr(children.next().expect("the block is lawful")));
        CallExpr { callee, args: self.each(children, Decoder::argument) }
    }

    fn argument(self, at: u32) -> ExprOrSpread {
        match self.row(at).kind {
            Kind::Spread => ExprOrSpread { spread: Some(()), expr: self.boxed_expr(self.child(at, 0)) },
            _ => ExprOrSpread { spread: None, expr: self.boxed_expr(at) },
        }
    }

    fn member(self, at: u32) -> MemberExpr {
        let (obj, prop) = (self.child(at, 0), self.child(at, 1));
        let prop = match self.row(prop).kind {
            Kind::Ident => MemberProp::Ident(self.ident_name(prop)),
            Kind::PrivateName => MemberProp::PrivateName(self.ident_name(prop)),
            _ => MemberProp::Computed(self.computed(prop)),
        };
        MemberExpr { obj: self.boxed_expr(obj), prop }
    }

    fn assign(self, at: u32) -> AssignExpr {
        let (left, right) = (self.child(at, 0), self.child(at, 1));
        let op = if self.row(at).mark == 0 { AssignOp::Assign } else { AssignOp::Other };
        let left = match self.row(left).kind {
            Kind::Ident => AssignTarget::Simple(SimpleAssignTarget::Ident(self.binding_ident(left))),
            Kind::Member => AssignTarget::Simple(SimpleAssignTarget::Member(self.member(left))),
            _ => AssignTarget::Pat(Box::new(self.part(left))),
        };
        AssignExpr { op, left, right: self.boxed_expr(right) }
    }

    fn fn_expr(self, at: u32) -> FnExpr {
        let (name, function) = self.first_and_last(at);
        FnExpr { ident: name.map(|name| self.ident(name)), function: self.function(function) }
    }

    /// The last child, and the one before it if there is one.
    fn first_and_last(self, at: u32) -> (Option<u32>, u32) {
        let first = self.child(at, 0);
        match self.children(at).nth(1) {
            Some(last) => (Some(first), last),
            None => (None, first),
        }
    }

    /// All children but the last one, and that.
    fn split_last(self, at: u32) -> (Vec<u32>, Option<u32>) {
        let mut children: Vec<u32> = self.children(at).collect();
        let last = children.pop();
        (children, last)
    }

    fn function(self, at: u32) -> Box<Function> {
        let (params, last) = self.split_last(at);
        let body = last.filter(|&last| self.row(last).kind == Kind::Block);
        let params = match body {
            Some(_) => self.parts(params.into_iter()),
            None => self.parts(self.children(at)),
        };
        Box::new(Function { params, body: body.map(|body| self.block(body)) })
    }

    fn arrow(self, at: u32) -> ArrowExpr {
        let (params, last) = self.split_last(at);
        let body = last.expect("the block is lawful");
        let body = match self.row(body).kind {
            Kind::Block => BlockStmtOrExpr::BlockStmt(self.block(body)),
            _ => BlockStmtOrExpr::Expr(self.boxed_expr(body)),
        };
        ArrowExpr { params: self.parts(params.into_iter()), body: Box::new(body) }
    }

    // Objects

    fn property(self, at: u32) -> PropOrSpread {
        let prop = match self.row(at).kind {
            Kind::Spread => {
                return PropOrSpread::Spread(SpreadElement { expr: self.boxed_expr(self.child(at, 0)) });
            }
            Kind::Shorthand => Prop::Shorthand(self.ident(at)),
            Kind::KeyValue => Prop::KeyValue(KeyValueProp {
                key: self.key(self.child(at, 0)),
                value: self.boxed_expr(self.child(at, 1)),
            }),
            Kind::Getter => Prop::Getter(GetterProp {
                key: self.key(self.child(at, 0)),
                body: self.children(at).nth(1).map(|body| self.block(body)),
            }),
            Kind::Setter => Prop::Setter(SetterProp {
                key: self.key(self.child(at, 0)),
                rest: self.parts(self.children(at).skip(1)),
            }),
            Kind::Method => Prop::Method(MethodProp {
                key: self.key(self.child(at, 0)),
                function: self.function(self.child(at, 1)),
            }),
            _ => Prop::Assign(self.part(at)),
        };
        PropOrSpread::Prop(Box::new(prop))
    }

    // Statements and declarations

    fn block(self, at: u32) -> BlockStmt {
        BlockStmt { stmts: self.each(self.children(at), Decoder::stmt) }
    }

    fn stmt(self, at: u32) -> Stmt {
        match self.row(at).kind {
            Kind::Return => Stmt::Return(ReturnStmt { arg: self.children(at).next().map(|arg| self.boxed_expr(arg)) }),
            _ => Stmt::Other(self.part(at)),
        }
    }

    /// A row that is only walked over.
    fn part(self, at: u32) -> Part {
        match self.row(at).kind {
            Kind::VarDecl => Part::Var(self.var_decl(at)),
            Kind::Call | Kind::Assign => Part::Expr(self.expr(at)),
            _ => Part::Rows(self.parts(self.children(at))),
        }
    }

    fn var_decl(self, at: u32) -> VarDecl {
        VarDecl { decls: self.declarators(at) }
    }

    fn declarators(self, at: u32) -> Vec<VarDeclarator> {
        self.each(self.children(at), |decoder, at| VarDeclarator {
            name: decoder.pat(decoder.child(at, 0)),
            init: decoder.children(at).nth(1).map(|init| decoder.boxed_expr(init)),
        })
    }

    fn decl(self, at: u32) -> Decl {
        let rest = || self.parts(self.children(at).skip(1));
        match self.row(at).kind {
            Kind::ClassDecl => Decl::Class(ClassDecl { ident: self.ident(self.child(at, 0)), rest: rest() }),
            Kind::FnDecl => Decl::Fn(FnDecl { ident: self.ident(self.child(at, 0)), rest: rest() }),
            Kind::VarDecl => Decl::Var(Box::new(self.var_decl(at))),
            Kind::UsingDecl => Decl::Using(Box::new(UsingDecl { decls: self.declarators(at) })),
            Kind::TsEnum => Decl::TsEnum(Box::new(TsEnumDecl { id: self.ident(self.child(at, 0)), rest: rest() })),
            Kind::TsModule => {
                Decl::TsModule(Box::new(TsModuleDecl { id: self.ts_module_name(self.child(at, 0)), rest: rest() }))
            }
            _ => Decl::TsInterface(self.part(at)),
        }
    }

    fn ts_module_name(self, at: u32) -> TsModuleName {
        match self.row(at).kind {
            Kind::Ident => TsModuleName::Ident(self.ident(at)),
            _ => TsModuleName::Str(self.str(at)),
        }
    }

    // Patterns

    fn pat(self, at: u32) -> Pat {
        match self.row(at).kind {
            Kind::Ident => Pat::Ident(self.binding_ident(at)),
            Kind::ArrayPat => {
                Pat::Array(ArrayPat { elems: self.each(self.children(at), |decoder, at| Some(decoder.pat(at))) })
            }
            Kind::RestPat => Pat::Rest(self.rest(at)),
            Kind::ObjectPat => {
                Pat::Object(ObjectPat { props: self.each(self.children(at), Decoder::pattern_property) })
            }
            Kind::AssignPat => Pat::Assign(AssignPat {
                left: Box::new(self.pat(self.child(at, 0))),
                right: self.boxed_expr(self.child(at, 1)),
            }),
            _ => Pat::Expr(self.part(at)),
        }
    }

    fn rest(self, at: u32) -> RestPat {
        RestPat { arg: Box::new(self.pat(self.child(at, 0))) }
    }

    fn pattern_property(self, at: u32) -> ObjectPatProp {
        match self.row(at).kind {
            Kind::KeyValuePat => ObjectPatProp::KeyValue(KeyValuePatProp {
                key: self.key(self.child(at, 0)),
                value: Box::new(self.pat(self.child(at, 1))),
            }),
            Kind::AssignPatProp => ObjectPatProp::Assign(AssignPatProp {
                key: self.binding_ident(self.child(at, 0)),
                value: self.children(at).nth(1).map(|value| self.boxed_expr(value)),
            }),
            _ => ObjectPatProp::Rest(self.rest(at)),
        }
    }

    // Module declarations

    fn module_item(self, at: u32) -> ModuleItem {
        let part = || self.part(at);
        ModuleItem::ModuleDecl(match self.row(at).kind {
            Kind::Import => ModuleDecl::Import(part()),
            Kind::ExportAll => ModuleDecl::ExportAll(ExportAll { src: Box::new(self.str(self.child(at, 0))) }),
            Kind::ExportDecl => ModuleDecl::ExportDecl(ExportDecl { decl: self.decl(self.child(at, 0)) }),
            Kind::ExportNamed => ModuleDecl::ExportNamed(self.named_export(at)),
            Kind::ExportDefault => ModuleDecl::ExportDefaultDecl(part()),
            Kind::TsImportEquals => ModuleDecl::TsImportEquals(part()),
            Kind::TsExportAssignment => ModuleDecl::TsExportAssignment(part()),
            Kind::TsNamespaceExport => ModuleDecl::TsNamespaceExport(part()),
            _ => return ModuleItem::Stmt(self.stmt(at)),
        })
    }

    fn named_export(self, at: u32) -> NamedExport {
        let is_src = |&child: &u32| self.row(child).kind == Kind::Str;
        NamedExport {
            specifiers: self.each(self.children(at).filter(|child| !is_src(child)), Decoder::specifier),
            src: self.children(at).find(is_src).map(|src| Box::new(self.str(src))),
        }
    }

    fn specifier(self, at: u32) -> ExportSpecifier {
        let first = self.child(at, 0);
        match self.row(at).kind {
            Kind::NamespaceSpec => {
                ExportSpecifier::Namespace(ExportNamespaceSpecifier { name: self.export_name(first) })
            }
            Kind::DefaultSpec => ExportSpecifier::Default(ExportDefaultSpecifier { exported: self.ident(first) }),
            _ => ExportSpecifier::Named(ExportNamedSpecifier {
                orig: self.export_name(first),
                exported: self.children(at).nth(1).map(|name| self.export_name(name)),
            }),
        }
    }

    fn export_name(self, at: u32) -> ModuleExportName {
        match self.row(at).kind {
            Kind::Ident => ModuleExportName::Ident(self.ident(at)),
            _ => ModuleExportName::Str(self.str(at)),
        }
    }
}
