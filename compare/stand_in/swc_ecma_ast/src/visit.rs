//! A visitor that comes to every row of a tree, rows of types included, in the order of the block.

use crate::tree::*;

/// What is done at the nodes that the reference has a rule for.
pub trait Visit {
    fn visit_module(&mut self, module: &Module) {
        module.visit_children_with(self);
    }

    fn visit_script(&mut self, script: &Script) {
        script.visit_children_with(self);
    }

    fn visit_var_decl(&mut self, decl: &VarDecl) {
        decl.visit_children_with(self);
    }

    fn visit_call_expr(&mut self, call: &CallExpr) {
        call.visit_children_with(self);
    }

    fn visit_assign_expr(&mut self, assign: &AssignExpr) {
        assign.visit_children_with(self);
    }
}

/// swc's macro makes a visitor pass over types. Here nothing is passed over.
#[macro_export]
macro_rules! noop_visit_type {
    () => {};
}

pub use noop_visit_type;

/// What can be visited.
pub trait VisitWith<V: Visit + ?Sized> {
    fn visit_with(&self, visitor: &mut V) {
        self.visit_children_with(visitor);
    }

    fn visit_children_with(&self, visitor: &mut V);
}

impl<V: Visit + ?Sized, T: VisitWith<V>> VisitWith<V> for Box<T> {
    fn visit_with(&self, visitor: &mut V) {
        (**self).visit_with(visitor);
    }

    fn visit_children_with(&self, visitor: &mut V) {
        (**self).visit_children_with(visitor);
    }
}

impl<V: Visit + ?Sized, T: VisitWith<V>> VisitWith<V> for Option<T> {
    fn visit_children_with(&self, visitor: &mut V) {
        self.iter().for_each(|node| node.visit_with(visitor));
    }
}

impl<V: Visit + ?Sized, T: VisitWith<V>> VisitWith<V> for Vec<T> {
    fn visit_children_with(&self, visitor: &mut V) {
        self.iter().for_each(|node| node.visit_with(visitor));
    }
}

/// `fields`: a struct's children are the fields named, in this order. `at`: it has a function of its own in [`Visit`].
macro_rules! fields {
    ($($type:ident { $($field:ident),* } $(at $own:ident)?;)*) => {$(
        impl<V: Visit + ?Sized> VisitWith<V> for $type {
            $(fn visit_with(&self, visitor: &mut V) {
                visitor.$own(self);
            })?

            fn visit_children_with(&self, _visitor: &mut V) {
                $(self.$field.visit_with(_visitor);)*
            }
        }
    )*};
}

/// An enum's child is what its case holds.
macro_rules! cases {
    ($($type:ident { $($case:ident),* };)*) => {$(
        impl<V: Visit + ?Sized> VisitWith<V> for $type {
            fn visit_children_with(&self, visitor: &mut V) {
                match self {
                    $($type::$case(held) => held.visit_with(visitor),)*
                }
            }
        }
    )*};
}

fields! {
    Module { body };
    Script { body };
    Ident {};
    IdentName {};
    BindingIdent {};
    Str {};
    Number {};
    Lit {};
    ComputedPropName { expr };
    CallExpr { callee, args } at visit_call_expr;
    ExprOrSpread { expr };
    MemberExpr { obj, prop };
    ParenExpr { expr };
    SeqExpr { exprs };
    AssignExpr { left, right } at visit_assign_expr;
    FnExpr { function };
    Function { params, body };
    ArrowExpr { params, body };
    ObjectLit { props };
    SpreadElement { expr };
    KeyValueProp { key, value };
    GetterProp { key, body };
    SetterProp { key, rest };
    MethodProp { key, function };
    BlockStmt { stmts };
    ReturnStmt { arg };
    VarDecl { decls } at visit_var_decl;
    UsingDecl { decls };
    VarDeclarator { name, init };
    ClassDecl { rest };
    FnDecl { rest };
    TsEnumDecl { rest };
    TsModuleDecl { rest };
    ArrayPat { elems };
    RestPat { arg };
    AssignPat { left, right };
    ObjectPat { props };
    KeyValuePatProp { key, value };
    AssignPatProp { value };
    ExportDecl { decl };
    ExportAll {};
    NamedExport {};
}

cases! {
    Part { Expr, Var, Rows };
    ModuleItem { ModuleDecl, Stmt };
    PropName { Ident, Str, Num, Computed, BigInt };
    Expr { Lit, Ident, Object, Call, Assign, Member, Paren, Seq, Fn, Arrow, Other };
    Callee { Expr };
    MemberProp { Ident, PrivateName, Computed };
    AssignTarget { Simple, Pat };
    SimpleAssignTarget { Ident, Member };
    BlockStmtOrExpr { BlockStmt, Expr };
    PropOrSpread { Prop, Spread };
    Prop { Shorthand, KeyValue, Assign, Getter, Setter, Method };
    Stmt { Return, Other };
    Decl { Class, Fn, Var, Using, TsInterface, TsTypeAlias, TsEnum, TsModule };
    Pat { Ident, Array, Rest, Object, Assign, Expr };
    ObjectPatProp { KeyValue, Assign, Rest };
    ModuleDecl {
        Import, ExportDecl, ExportNamed, ExportDefaultDecl, ExportDefaultExpr, ExportAll, TsImportEquals,
        TsExportAssignment, TsNamespaceExport
    };
}
