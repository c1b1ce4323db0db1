//! The table of kinds.

use Group::{Any, AnyButBlock, Nothing, OneOf};
use Kind::*;
use TextForm::{NoText, Utf8, Wtf8};

#[derive(Clone, Copy, Debug, PartialEq, Eq, PartialOrd, Ord, Hash)]
pub enum Kind {
    Other,
    Program,
    Ident,
    Str,
    Num,
    OtherLit,
    Call,
    Spread,
    Member,
    PrivateName,
    Computed,
    Paren,
    Seq,
    Assign,
    Object,
    KeyValue,
    Shorthand,
    Getter,
    Setter,
    Method,
    Function,
    FnExpr,
    Arrow,
    Block,
    Return,
    VarDecl,
    UsingDecl,
    Declarator,
    ArrayPat,
    ObjectPat,
    KeyValuePat,
    AssignPatProp,
    RestPat,
    AssignPat,
    Import,
    ExportAll,
    ExportDecl,
    ExportNamed,
    NamespaceSpec,
    DefaultSpec,
    NamedSpec,
    ExportDefault,
    TsImportEquals,
    TsExportAssignment,
    TsNamespaceExport,
    ClassDecl,
    FnDecl,
    TsEnum,
    TsModule,
    TypeDecl,
}

/// How the text of a kind is written.
#[derive(Clone, Copy, Debug, PartialEq, Eq)]
pub enum TextForm {
    NoText,
    Utf8,
    Wtf8,
}

/// The kinds that may stand at one place below a row.
#[derive(Clone, Copy, Debug)]
pub enum Group {
    Nothing,
    Any,
    AnyButBlock,
    OneOf(&'static [Kind]),
}

impl Group {
    pub fn has(self, kind: Kind) -> bool {
        match self {
            Nothing => false,
            Any => true,
            AnyButBlock => kind != Block,
            OneOf(kinds) => kinds.contains(&kind),
        }
    }

    /// Also numbers that are no kind.
    pub fn has_every_number(self) -> bool {
        matches!(self, Any | AnyButBlock)
    }
}

/// A line of the table: what a row of a kind may have below it.
pub struct Line {
    pub kind: Kind,
    pub text: TextForm,
    pub highest_mark: u32,
    pub fewest: usize,
    pub most: usize,
    first: Group,
    others: Group,
    last: Group,
}

impl Line {
    /// What may stand at a place among so many children.
    pub fn group(&self, place: usize, count: usize) -> Group {
        match self.last {
            Nothing if place == 0 => self.first,
            Nothing => self.others,
            last if place + 1 == count => last,
            _ if place == 0 => self.first,
            _ => self.others,
        }
    }
}

const fn line(kind: Kind, few: usize, most: usize, first: Group, others: Group, last: Group) -> Line {
    let text = match kind {
        Ident | PrivateName | Shorthand => Utf8,
        Str => Wtf8,
        _ => NoText,
    };
    let highest_mark = matches!(kind, Program | Num | Assign) as u32;
    Line { kind, text, highest_mark, fewest: few, most, first, others, last }
}

const MANY: usize = usize::MAX;
const KEY: Group = OneOf(&[Ident, Str, Num, OtherLit, Computed]);
const NAME: Group = OneOf(&[Ident, Str]);
const PROPERTY: Group = OneOf(&[Other, Spread, KeyValue, Shorthand, Getter, Setter, Method]);
const PATTERN_PROPERTY: Group = OneOf(&[KeyValuePat, AssignPatProp, RestPat]);
const DECLARATION: Group = OneOf(&[VarDecl, UsingDecl, ClassDecl, FnDecl, TsEnum, TsModule, TypeDecl]);
const SPECIFIER: Group = OneOf(&[NamespaceSpec, DefaultSpec, NamedSpec]);
const SPECIFIER_OR_STR: Group = OneOf(&[NamespaceSpec, DefaultSpec, NamedSpec, Str]);
const DECLARATOR: Group = OneOf(&[Declarator]);

pub static LINES: [Line; 50] = [
    line(Other, 0, MANY, Any, Any, Nothing),
    line(Program, 0, MANY, Any, Any, Nothing),
    line(Ident, 0, 0, Nothing, Nothing, Nothing),
    line(Str, 0, 0, Nothing, Nothing, Nothing),
    line(Num, 0, 0, Nothing, Nothing, Nothing),
    line(OtherLit, 0, 0, Nothing, Nothing, Nothing),
    line(Call, 1, MANY, Any, Any, Nothing),
    line(Spread, 1, 1, Any, Nothing, Nothing),
    line(Member, 2, 2, Any, OneOf(&[Ident, PrivateName, Computed]), Nothing),
    line(PrivateName, 0, 0, Nothing, Nothing, Nothing),
    line(Computed, 1, 1, Any, Nothing, Nothing),
    line(Paren, 1, 1, Any, Nothing, Nothing),
    line(Seq, 1, MANY, Any, Any, Nothing),
    line(Assign, 2, 2, Any, Any, Nothing),
    line(Object, 0, MANY, PROPERTY, PROPERTY, Nothing),
    line(KeyValue, 2, 2, KEY, Any, Nothing),
    line(Shorthand, 0, 0, Nothing, Nothing, Nothing),
    line(Getter, 1, 2, KEY, OneOf(&[Block]), Nothing),
    line(Setter, 1, MANY, KEY, Any, Nothing),
    line(Method, 2, 2, KEY, OneOf(&[Function]), Nothing),
    line(Function, 0, MANY, AnyButBlock, AnyButBlock, Any),
    line(FnExpr, 1, 2, OneOf(&[Ident]), Nothing, OneOf(&[Function])),
    line(Arrow, 1, MANY, Any, Any, Nothing),
    line(Block, 0, MANY, Any, Any, Nothing),
    line(Return, 0, 1, Any, Nothing, Nothing),
    line(VarDecl, 0, MANY, DECLARATOR, DECLARATOR, Nothing),
    line(UsingDecl, 0, MANY, DECLARATOR, DECLARATOR, Nothing),
    line(Declarator, 1, 2, Any, Any, Nothing),
    line(ArrayPat, 0, MANY, Any, Any, Nothing),
    line(ObjectPat, 0, MANY, PATTERN_PROPERTY, PATTERN_PROPERTY, Nothing),
    line(KeyValuePat, 2, 2, KEY, Any, Nothing),
    line(AssignPatProp, 1, 2, OneOf(&[Ident]), Any, Nothing),
    line(RestPat, 1, 1, Any, Nothing, Nothing),
    line(AssignPat, 2, 2, Any, Any, Nothing),
    line(Import, 0, MANY, Any, Any, Nothing),
    line(ExportAll, 1, 1, OneOf(&[Str]), Nothing, Nothing),
    line(ExportDecl, 1, 1, DECLARATION, Nothing, Nothing),
    line(ExportNamed, 0, MANY, SPECIFIER, SPECIFIER, SPECIFIER_OR_STR),
    line(NamespaceSpec, 1, 1, NAME, Nothing, Nothing),
    line(DefaultSpec, 1, 1, OneOf(&[Ident]), Nothing, Nothing),
    line(NamedSpec, 1, 2, NAME, NAME, Nothing),
    line(ExportDefault, 1, 1, Any, Nothing, Nothing),
    line(TsImportEquals, 0, MANY, Any, Any, Nothing),
    line(TsExportAssignment, 0, MANY, Any, Any, Nothing),
    line(TsNamespaceExport, 0, MANY, Any, Any, Nothing),
    line(ClassDecl, 1, MANY, OneOf(&[Ident]), Any, Nothing),
    line(FnDecl, 1, MANY, OneOf(&[Ident]), Any, Nothing),
    line(TsEnum, 1, MANY, OneOf(&[Ident]), Any, Nothing),
    line(TsModule, 1, MANY, NAME, Any, Nothing),
    line(TypeDecl, 0, MANY, Any, Any, Nothing),
];

impl Kind {
    pub fn from_number(number: u32) -> Option<Kind> {
        LINES.get(number as usize).map(|line| line.kind)
    }

    pub fn number(self) -> u32 {
        self as u32
    }

    pub fn line(self) -> &'static Line {
        &LINES[self as usize]
    }

    pub fn name(self) -> String {
        format!("{self:?}")
    }

    /// Only in a module may it be a child of the Program.
    pub fn is_module_item(self) -> bool {
        (Import..=TsNamespaceExport).contains(&self)
    }

    /// All kinds that a row below the first may have.
    pub fn all_but_program() -> impl Iterator<Item = Kind> {
        LINES.iter().map(|line| line.kind).filter(|&kind| kind != Program)
    }
}
