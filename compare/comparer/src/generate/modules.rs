//! The items of a module, and patterns.

use super::{Generator, row};
use blocks::{Kind, Tree};

impl Generator {
    pub(super) fn pattern(&mut self, depth: usize) -> Tree {
        let inner = depth.saturating_sub(1);
        match self.random.below(if depth == 0 { 2 } else { 10 }) {
            0 | 1 => self.name(),
            2 | 3 => Tree::new(Kind::ArrayPat, (0..self.random.below(4)).map(|_| self.pattern(inner)).collect()),
            4 | 5 => {
                Tree::new(Kind::ObjectPat, (0..self.random.below(4)).map(|_| self.pattern_property(inner)).collect())
            }
            6 => row(Kind::RestPat, [self.pattern(inner)]),
            7 => row(Kind::AssignPat, [self.pattern(inner), self.any(1)]),
            8 => self.pattern_property(inner),
            _ => self.any(inner),
        }
    }

    pub(super) fn pattern_property(&mut self, depth: usize) -> Tree {
        match self.random.below(4) {
            0 => row(Kind::KeyValuePat, [self.key(depth), self.pattern(depth)]),
            1 => row(Kind::AssignPatProp, [self.name()]),
            2 => row(Kind::AssignPatProp, [self.name(), self.any(1)]),
            _ => row(Kind::RestPat, [self.pattern(depth)]),
        }
    }

    pub(super) fn declaration(&mut self, depth: usize) -> Tree {
        let kinds = [Kind::ClassDecl, Kind::FnDecl, Kind::TsEnum, Kind::TsModule, Kind::TypeDecl];
        match self.random.below(9) {
            0..3 => self.var_decl(depth.max(2)),
            3 => Tree::new(Kind::UsingDecl, (0..2).map(|_| self.declarator(2)).collect()),
            number => self.of_kind(kinds[number - 4], depth),
        }
    }

    pub(super) fn export_name(&mut self) -> Tree {
        if self.random.percent(70) { self.name() } else { self.string() }
    }

    pub(super) fn specifier(&mut self) -> Tree {
        match self.random.below(6) {
            0 => row(Kind::NamespaceSpec, [self.export_name()]),
            1 => row(Kind::DefaultSpec, [self.name()]),
            2 | 3 => row(Kind::NamedSpec, [self.export_name()]),
            _ => row(Kind::NamedSpec, [self.export_name(), self.export_name()]),
        }
    }

    /// An item that only a module may have; now and then the TypeScript ones, which decide the script test.
    pub(super) fn item(&mut self) -> Tree {
        match self.random.below(20) {
            0..3 => row(Kind::ExportAll, [self.string()]),
            3..8 => row(Kind::ExportDecl, [self.declaration(2)]),
            8..12 => {
                let mut children: Vec<Tree> = (0..self.random.below(4)).map(|_| self.specifier()).collect();
                if self.random.percent(50) {
                    children.push(self.string());
                }
                Tree::new(Kind::ExportNamed, children)
            }
            12 => row(Kind::ExportDefault, [self.expression(1)]),
            13 => row(Kind::ExportDefault, [self.declaration(1)]),
            14 => self.of_kind(Kind::Import, 2),
            15 => self.of_kind(Kind::TsImportEquals, 2),
            16 => self.of_kind(Kind::TsExportAssignment, 2),
            17 => self.of_kind(Kind::TsNamespaceExport, 2),
            _ => self.statement(3),
        }
    }
}
