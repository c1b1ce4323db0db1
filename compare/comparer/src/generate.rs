//! Trees, biased to the rules: the shapes that a rule asks for, with other things in their places at times.

mod commonjs;
mod modules;

use crate::random::Random;
use crate::texts::{name, string, variable, word};
use crate::twist::twist;
use blocks::kinds::{Group, TextForm};
use blocks::{Kind, Tree};

/// Makes trees one after the other.
pub struct Generator {
    pub random: Random,
}

fn row<const N: usize>(kind: Kind, children: [Tree; N]) -> Tree {
    Tree::new(kind, children.into())
}

fn ident(text: impl AsRef<[u8]>) -> Tree {
    Tree::text(Kind::Ident, text)
}

fn call(callee: Tree, arguments: Vec<Tree>) -> Tree {
    Tree::new(Kind::Call, [vec![callee], arguments].concat())
}

impl Generator {
    pub fn new(seed: u64) -> Generator {
        Generator { random: Random::new(seed) }
    }

    /// A tree, lawful but for a few that are too deep.
    pub fn tree(&mut self) -> Tree {
        let mut tree = self.program();
        if self.random.percent(60) {
            for _ in 0..self.random.between(1, 3) {
                tree = twist(self, tree);
            }
        }
        tree
    }

    fn program(&mut self) -> Tree {
        let mark = self.random.below(2) as u32;
        let most = if self.random.below(500) == 0 { 300 } else { 7 };
        let count = self.random.between(1, most);
        let items = (0..count).map(|_| self.child_of_program(mark));
        let program = Tree::new(Kind::Program, items.collect()).marked(mark);
        if self.random.below(150) == 0 { self.deepened(program) } else { program }
    }

    fn child_of_program(&mut self, mark: u32) -> Tree {
        let made = if mark == 0 && self.random.percent(55) { self.item() } else { self.statement(4) };
        if mark == 1 && made.kind.is_module_item() { row(Kind::Block, [made]) } else { made }
    }

    /// The first statement below many rows, at times too many.
    fn deepened(&mut self, mut program: Tree) -> Tree {
        let wraps = [Kind::Paren, Kind::Block, Kind::Other, Kind::Arrow, Kind::Return, Kind::Spread, Kind::TypeDecl];
        let mut first = program.children.remove(0);
        for _ in first.depth()..*self.random.pick(&[60, 255, 256, 256, 257, 257]) {
            first = row(*self.random.pick(&wraps), [first]);
        }
        program.children.insert(0, first);
        program
    }

    /// One thing in most cases, else anything.
    fn mostly(&mut self, made: Tree, depth: usize) -> Tree {
        if self.random.percent(94) { made } else { self.any(depth) }
    }

    fn word(&mut self, wanted: &str) -> Tree {
        ident(word(&mut self.random, wanted))
    }

    fn name(&mut self) -> Tree {
        ident(name(&mut self.random))
    }

    fn variable(&mut self) -> Tree {
        ident(variable(&mut self.random))
    }

    fn string(&mut self) -> Tree {
        Tree::text(Kind::Str, string(&mut self.random))
    }

    fn number(&mut self) -> Tree {
        Tree::leaf(Kind::Num).marked(self.random.below(2) as u32)
    }

    /// A tree of any kind with any lawful children.
    pub fn any(&mut self, depth: usize) -> Tree {
        if depth > 0 && self.random.percent(60) {
            return if self.random.percent(50) { self.statement(depth - 1) } else { self.expression(depth - 1) };
        }
        let kinds: Vec<Kind> = Kind::all_but_program().collect();
        let kind = *self.random.pick(&kinds);
        self.of_kind(kind, depth.saturating_sub(1))
    }

    /// A tree of this kind with any lawful children.
    pub fn of_kind(&mut self, kind: Kind, depth: usize) -> Tree {
        let line = kind.line();
        let spare = if depth == 0 { 0 } else { (line.most - line.fewest).min(2) };
        let count = line.fewest + self.random.between(0, spare);
        let children = (0..count).map(|place| self.of_group(line.group(place, count), depth)).collect();
        let text = match line.text {
            TextForm::NoText => Vec::new(),
            TextForm::Utf8 => name(&mut self.random).into_bytes(),
            TextForm::Wtf8 => string(&mut self.random),
        };
        Tree { kind, mark: self.random.between(0, line.highest_mark as usize) as u32, text, children }
    }

    fn of_group(&mut self, group: Group, depth: usize) -> Tree {
        match group {
            Group::OneOf(kinds) => {
                let kind = *self.random.pick(kinds);
                self.of_kind(kind, depth.saturating_sub(1))
            }
            _ if depth == 0 => self.name(),
            group => match self.any(depth - 1) {
                tree if group.has(tree.kind) => tree,
                _ => self.name(),
            },
        }
    }

    pub fn expression(&mut self, depth: usize) -> Tree {
        match self.random.below(16) {
            0..3 => self.assignment(depth),
            3 | 4 => self.definition(depth),
            5..7 => self.star_call(),
            7 => self.required(),
            8 => self.keyed(),
            9 => self.exports_object(),
            10 => self.function_value(depth),
            11 => self.object(depth.min(2)),
            12 => self.string(),
            13 => self.exported_member(),
            _ if depth > 0 => self.any(depth - 1),
            _ => self.name(),
        }
    }

    pub fn statement(&mut self, depth: usize) -> Tree {
        let inner = depth.saturating_sub(1);
        match self.random.below(24) {
            0..7 => self.assignment(inner),
            7..11 => self.definition(inner),
            11..15 => self.star_call(),
            15..19 => self.var_decl(inner),
            19 if depth > 0 => self.loop_over_keys(inner),
            20 if depth > 0 => {
                let kinds = [Kind::Block, Kind::Other, Kind::TypeDecl, Kind::Paren, Kind::Seq, Kind::Return];
                let kind = *self.random.pick(&kinds);
                row(kind, [self.statement(inner)])
            }
            21 => self.declaration(inner),
            22 => self.expression(inner),
            _ => self.any(inner),
        }
    }
}
