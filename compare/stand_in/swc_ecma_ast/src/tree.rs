//! The tree. A field that no rule looks at is a list of [`Part`]s; the fields stand in the order of the walk.

use crate::atoms::{Atom, Wtf8Atom};
use std::borrow::Cow;

/// Rows at which no rule looks. They are still walked over.
#[derive(Debug)]
pub enum Part {
    Expr(Expr),
    Var(VarDecl),
    Rows(Vec<Part>),
}

#[derive(Debug)]
pub enum Program {
    Module(Module),
    Script(Script),
}

#[derive(Debug)]
pub struct Module {
    pub body: Vec<ModuleItem>,
}

#[derive(Debug)]
pub struct Script {
    pub body: Vec<Stmt>,
}

#[derive(Debug)]
pub enum ModuleItem {
    ModuleDecl(ModuleDecl),
    Stmt(Stmt),
}

// Texts and names

#[derive(Debug)]
pub struct Ident {
    pub sym: Atom,
}

#[derive(Debug)]
pub struct IdentName {
    pub sym: Atom,
}

#[derive(Debug)]
pub struct BindingIdent {
    pub id: Ident,
}

#[derive(Debug)]
pub struct Str {
    pub value: Wtf8Atom,
}

#[derive(Debug)]
pub struct Number {
    pub value: f64,
}

#[derive(Debug)]
pub enum Lit {
    Str(Str),
    Num(Number),
    /// A boolean, null, a big integer or a regular expression.
    Other,
}

#[derive(Debug)]
pub struct ComputedPropName {
    pub expr: Box<Expr>,
}

#[derive(Debug)]
pub enum PropName {
    Ident(IdentName),
    Str(Str),
    Num(Number),
    Computed(ComputedPropName),
    /// Any other literal.
    BigInt(Lit),
}

// Expressions

#[derive(Debug)]
pub enum Expr {
    Lit(Lit),
    Ident(Ident),
    Object(ObjectLit),
    Call(CallExpr),
    Assign(AssignExpr),
    Member(MemberExpr),
    Paren(ParenExpr),
    Seq(SeqExpr),
    Fn(FnExpr),
    Arrow(ArrowExpr),
    Other(Box<Part>),
}

#[derive(Debug)]
pub struct CallExpr {
    pub callee: Callee,
    pub args: Vec<ExprOrSpread>,
}

#[derive(Debug)]
pub enum Callee {
    Expr(Box<Expr>),
}

#[derive(Debug)]
pub struct ExprOrSpread {
    pub spread: Option<()>,
    pub expr: Box<Expr>,
}

#[derive(Debug)]
pub struct MemberExpr {
    pub obj: Box<Expr>,
    pub prop: MemberProp,
}

#[derive(Debug)]
pub enum MemberProp {
    Ident(IdentName),
    PrivateName(IdentName),
    Computed(ComputedPropName),
}

#[derive(Debug)]
pub struct ParenExpr {
    pub expr: Box<Expr>,
}

#[derive(Debug)]
pub struct SeqExpr {
    pub exprs: Vec<Box<Expr>>,
}

#[derive(Debug, PartialEq)]
pub enum AssignOp {
    Assign,
    /// Any operator but `=`.
    Other,
}

#[derive(Debug)]
pub struct AssignExpr {
    pub op: AssignOp,
    pub left: AssignTarget,
    pub right: Box<Expr>,
}

#[derive(Debug)]
pub enum AssignTarget {
    Simple(SimpleAssignTarget),
    Pat(Box<Part>),
}

#[derive(Debug)]
pub enum SimpleAssignTarget {
    Ident(BindingIdent),
    Member(MemberExpr),
}

#[derive(Debug)]
pub struct FnExpr {
    pub ident: Option<Ident>,
    pub function: Box<Function>,
}

#[derive(Debug)]
pub struct Function {
    pub params: Vec<Part>,
    pub body: Option<BlockStmt>,
}

#[derive(Debug)]
pub struct ArrowExpr {
    pub params: Vec<Part>,
    pub body: Box<BlockStmtOrExpr>,
}

#[derive(Debug)]
pub enum BlockStmtOrExpr {
    BlockStmt(BlockStmt),
    Expr(Box<Expr>),
}

// Objects

#[derive(Debug)]
pub struct ObjectLit {
    pub props: Vec<PropOrSpread>,
}

#[derive(Debug)]
pub enum PropOrSpread {
    Prop(Box<Prop>),
    Spread(SpreadElement),
}

#[derive(Debug)]
pub struct SpreadElement {
    pub expr: Box<Expr>,
}

#[derive(Debug)]
pub enum Prop {
    Shorthand(Ident),
    KeyValue(KeyValueProp),
    /// Only in invalid objects; here any property without a kind of its own.
    Assign(Part),
    Getter(GetterProp),
    Setter(SetterProp),
    Method(MethodProp),
}

#[derive(Debug)]
pub struct KeyValueProp {
    pub key: PropName,
    pub value: Box<Expr>,
}

#[derive(Debug)]
pub struct GetterProp {
    pub key: PropName,
    pub body: Option<BlockStmt>,
}

#[derive(Debug)]
pub struct SetterProp {
    pub key: PropName,
    pub rest: Vec<Part>,
}

#[derive(Debug)]
pub struct MethodProp {
    pub key: PropName,
    pub function: Box<Function>,
}

// Statements and declarations

#[derive(Debug)]
pub struct BlockStmt {
    pub stmts: Vec<Stmt>,
}

#[derive(Debug)]
pub enum Stmt {
    Return(ReturnStmt),
    Other(Part),
}

#[derive(Debug)]
pub struct ReturnStmt {
    pub arg: Option<Box<Expr>>,
}

#[derive(Debug)]
pub struct VarDecl {
    pub decls: Vec<VarDeclarator>,
}

#[derive(Debug)]
pub struct UsingDecl {
    pub decls: Vec<VarDeclarator>,
}

#[derive(Debug)]
pub struct VarDeclarator {
    pub name: Pat,
    pub init: Option<Box<Expr>>,
}

#[derive(Debug)]
pub enum Decl {
    Class(ClassDecl),
    Fn(FnDecl),
    Var(Box<VarDecl>),
    Using(Box<UsingDecl>),
    /// Here also a type alias.
    TsInterface(Part),
    /// Never made.
    TsTypeAlias(Part),
    TsEnum(Box<TsEnumDecl>),
    TsModule(Box<TsModuleDecl>),
}

#[derive(Debug)]
pub struct ClassDecl {
    pub ident: Ident,
    pub rest: Vec<Part>,
}

#[derive(Debug)]
pub struct FnDecl {
    pub ident: Ident,
    pub rest: Vec<Part>,
}

#[derive(Debug)]
pub struct TsEnumDecl {
    pub id: Ident,
    pub rest: Vec<Part>,
}

#[derive(Debug)]
pub struct TsModuleDecl {
    pub id: TsModuleName,
    pub rest: Vec<Part>,
}

#[derive(Debug)]
pub enum TsModuleName {
    Ident(Ident),
    Str(Str),
}

// Patterns

#[derive(Debug)]
pub enum Pat {
    Ident(BindingIdent),
    Array(ArrayPat),
    Rest(RestPat),
    Object(ObjectPat),
    Assign(AssignPat),
    Expr(Part),
}

#[derive(Debug)]
pub struct ArrayPat {
    pub elems: Vec<Option<Pat>>,
}

#[derive(Debug)]
pub struct RestPat {
    pub arg: Box<Pat>,
}

#[derive(Debug)]
pub struct AssignPat {
    pub left: Box<Pat>,
    pub right: Box<Expr>,
}

#[derive(Debug)]
pub struct ObjectPat {
    pub props: Vec<ObjectPatProp>,
}

#[derive(Debug)]
pub enum ObjectPatProp {
    KeyValue(KeyValuePatProp),
    Assign(AssignPatProp),
    Rest(RestPat),
}

#[derive(Debug)]
pub struct KeyValuePatProp {
    pub key: PropName,
    pub value: Box<Pat>,
}

#[derive(Debug)]
pub struct AssignPatProp {
    pub key: BindingIdent,
    pub value: Option<Box<Expr>>,
}

// Module declarations

#[derive(Debug)]
pub enum ModuleDecl {
    Import(Part),
    ExportDecl(ExportDecl),
    ExportNamed(NamedExport),
    /// Here any default export.
    ExportDefaultDecl(Part),
    /// Never made.
    ExportDefaultExpr(Part),
    ExportAll(ExportAll),
    TsImportEquals(Part),
    TsExportAssignment(Part),
    TsNamespaceExport(Part),
}

#[derive(Debug)]
pub struct ExportDecl {
    pub decl: Decl,
}

#[derive(Debug)]
pub struct ExportAll {
    pub src: Box<Str>,
}

#[derive(Debug)]
pub struct NamedExport {
    pub specifiers: Vec<ExportSpecifier>,
    pub src: Option<Box<Str>>,
}

#[derive(Debug)]
pub enum ExportSpecifier {
    Namespace(ExportNamespaceSpecifier),
    Default(ExportDefaultSpecifier),
    Named(ExportNamedSpecifier),
}

#[derive(Debug)]
pub struct ExportNamespaceSpecifier {
    pub name: ModuleExportName,
}

#[derive(Debug)]
pub struct ExportDefaultSpecifier {
    pub exported: Ident,
}

#[derive(Debug)]
pub struct ExportNamedSpecifier {
    pub orig: ModuleExportName,
    pub exported: Option<ModuleExportName>,
}

#[derive(Debug)]
pub enum ModuleExportName {
    Ident(Ident),
    Str(Str),
}

impl ModuleExportName {
    /// The name, a string's by its loose reading.
    pub fn atom(&self) -> Cow<'_, Atom> {
        match self {
            ModuleExportName::Ident(ident) => Cow::Borrowed(&ident.sym),
            ModuleExportName::Str(str) => Cow::Owned(Atom::from(&*str.value.to_string_lossy())),
        }
    }
}

// One case of an enum

macro_rules! case {
    ($($type:ident::$case:ident($held:ty) as $name:ident;)*) => {$(
        impl $type {
            pub fn $name(&self) -> Option<&$held> {
                match self {
                    $type::$case(held) => Some(held),
                    #[allow(unreachable_patterns)]
                    _ => None,
                }
            }
        }
    )*};
}

case! {
    Expr::Lit(Lit) as as_lit;
    Expr::Ident(Ident) as as_ident;
    Expr::Object(ObjectLit) as as_object;
    Expr::Call(CallExpr) as as_call;
    Expr::Member(MemberExpr) as as_member;
    Expr::Seq(SeqExpr) as as_seq;
    Callee::Expr(Box<Expr>) as as_expr;
    MemberProp::Computed(ComputedPropName) as as_computed;
    PropOrSpread::Prop(Box<Prop>) as as_prop;
    Pat::Ident(BindingIdent) as as_ident;
}
