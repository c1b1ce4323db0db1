//! The shapes of the CommonJS rules.

use super::{Generator, call, ident, row};
use crate::texts::{name, word};
use blocks::{Kind, Tree};

impl Generator {
    /// The word as a property, at times in brackets.
    pub(super) fn property_word(&mut self, wanted: &str) -> Tree {
        let word = word(&mut self.random, wanted);
        match self.random.below(12) {
            0 => row(Kind::Computed, [Tree::text(Kind::Str, word)]),
            _ => ident(word),
        }
    }

    /// `exports`, `module.exports` or `module["exports"]`.
    pub(super) fn exports_object(&mut self) -> Tree {
        let made = match self.random.below(8) {
            0..5 => self.word("exports"),
            _ => row(Kind::Member, [self.word("module"), self.property_word("exports")]),
        };
        self.mostly(made, 1)
    }

    /// A call of `require`, at times within calls of `_interopRequireWildcard`.
    pub(super) fn required(&mut self) -> Tree {
        let string = self.string();
        let made = call(self.word("require"), self.arguments(string));
        match self.random.below(5) {
            0 => {
                let outer = call(self.word("_interopRequireWildcard"), self.arguments(made));
                if self.random.percent(30) { call(self.word("_interopRequireWildcard"), vec![outer]) } else { outer }
            }
            _ => self.mostly(made, 1),
        }
    }

    /// This first argument, at times spread, and at times more.
    pub(super) fn arguments(&mut self, first: Tree) -> Vec<Tree> {
        match self.random.below(30) {
            0 => vec![row(Kind::Spread, [first])],
            1 => vec![],
            2 => vec![first, self.any(1)],
            3 => vec![self.any(1), first],
            4 => vec![first, row(Kind::Spread, [self.name()])],
            _ => vec![first],
        }
    }

    /// A value of a binding: mostly what is required.
    pub(super) fn value(&mut self, depth: usize) -> Tree {
        match self.random.below(6) {
            0 if depth > 0 => self.expression(depth - 1),
            1 => self.keyed(),
            _ => self.required(),
        }
    }

    /// A variable and this key, mostly in brackets.
    pub(super) fn keyed_by(&mut self, key: Tree) -> Tree {
        let property = if self.random.percent(90) { row(Kind::Computed, [key]) } else { key };
        row(Kind::Member, [self.variable(), property])
    }

    /// `e[k]`
    pub(super) fn keyed(&mut self) -> Tree {
        let key = match self.random.below(12) {
            0 => self.variable(),
            1 => row(Kind::Computed, [self.string()]),
            _ => row(Kind::Computed, [self.variable()]),
        };
        row(Kind::Member, [self.variable(), key])
    }

    pub(super) fn var_decl(&mut self, depth: usize) -> Tree {
        let count = *self.random.pick(&[1, 1, 1, 2, 3, 0]);
        let declarators = (0..count).map(|_| self.declarator(depth)).collect();
        Tree::new(if self.random.percent(92) { Kind::VarDecl } else { Kind::UsingDecl }, declarators)
    }

    pub(super) fn declarator(&mut self, depth: usize) -> Tree {
        let pattern = if self.random.percent(75) { self.variable() } else { self.pattern(depth) };
        let mut children = vec![pattern];
        if self.random.percent(90) {
            children.push(self.value(depth));
        }
        Tree::new(Kind::Declarator, children)
    }

    /// `exports.a`, `exports["a"]`, `exports[k]`
    pub(super) fn exported_member(&mut self) -> Tree {
        let property = match self.random.below(10) {
            0..4 => self.name(),
            4 | 5 => row(Kind::Computed, [self.string()]),
            6..9 => row(Kind::Computed, [self.variable()]),
            _ => self.of_group(Kind::Member.line().group(1, 2), 2),
        };
        row(Kind::Member, [self.exports_object(), property])
    }

    pub(super) fn assignment(&mut self, depth: usize) -> Tree {
        let (target, right) = match self.random.below(10) {
            0..4 => (self.exports_object(), self.right_side(depth)),
            4..8 => (self.exported_member(), self.plain_right_side(depth)),
            8 => {
                let key = self.variable();
                let target = row(Kind::Member, [self.exports_object(), row(Kind::Computed, [key.clone()])]);
                (target, self.keyed_by(key))
            }
            _ => (self.any(depth.min(2)), self.right_side(depth)),
        };
        let mark = u32::from(self.random.percent(8));
        row(Kind::Assign, [target, right]).marked(mark)
    }

    /// What is assigned to the exports object.
    pub(super) fn right_side(&mut self, depth: usize) -> Tree {
        match self.random.below(10) {
            0..4 if depth > 0 => self.object(depth - 1),
            4..6 => self.required(),
            6 | 7 if depth > 0 => {
                let mark = u32::from(self.random.percent(15));
                let target = if self.random.percent(50) { self.exported_member() } else { self.any(1) };
                row(Kind::Assign, [target, self.right_side(depth - 1)]).marked(mark)
            }
            8 => self.keyed(),
            _ => self.any(depth),
        }
    }

    /// What is assigned to a property of it.
    pub(super) fn plain_right_side(&mut self, depth: usize) -> Tree {
        match self.random.below(6) {
            0..3 => self.keyed(),
            3 if depth > 0 => self.assignment(depth - 1),
            4 => self.any(depth),
            _ => self.number(),
        }
    }

    pub(super) fn object(&mut self, depth: usize) -> Tree {
        let count = self.random.between(0, 3);
        Tree::new(Kind::Object, (0..count).map(|_| self.property(depth)).collect())
    }

    pub(super) fn property(&mut self, depth: usize) -> Tree {
        let key = self.key(depth);
        self.property_of(key, depth)
    }

    pub(super) fn key(&mut self, depth: usize) -> Tree {
        match self.random.below(10) {
            0..6 => self.name(),
            6 | 7 => self.string(),
            8 if depth > 0 => row(Kind::Computed, [self.expression(depth - 1)]),
            _ => self.of_group(Kind::KeyValue.line().group(0, 2), 2),
        }
    }

    pub(super) fn property_of(&mut self, key: Tree, depth: usize) -> Tree {
        match self.random.below(14) {
            0..3 => row(Kind::KeyValue, [key, self.any(depth)]),
            3 | 4 => Tree::text(Kind::Shorthand, name(&mut self.random)),
            5..8 => row(Kind::Getter, [key, self.getter_body(depth)]),
            8 | 9 => row(Kind::Method, [key, self.function(depth)]),
            10 => Tree::new(Kind::Setter, vec![key, self.any(depth)]),
            11 => row(Kind::Getter, [key]),
            12 => row(Kind::Spread, [self.value(depth)]),
            _ => Tree::new(Kind::Other, vec![self.any(depth)]),
        }
    }

    /// `{ return .. }`
    pub(super) fn getter_body(&mut self, depth: usize) -> Tree {
        let returned = row(Kind::Return, [self.returned(depth)]);
        let statements = match self.random.below(12) {
            0 => vec![],
            1 => vec![returned, self.any(depth)],
            2 => vec![Tree::leaf(Kind::Return)],
            3 => vec![self.returned(depth)],
            4 => vec![self.any(depth)],
            _ => vec![returned],
        };
        Tree::new(Kind::Block, statements)
    }

    /// Mostly harmless.
    pub(super) fn returned(&mut self, depth: usize) -> Tree {
        match self.random.below(14) {
            0..4 => self.keyed(),
            4 | 5 => self.name(),
            6 => row(Kind::Member, [self.harmless(depth), self.name()]),
            7 => row(Kind::Member, [self.harmless(depth), Tree::text(Kind::PrivateName, name(&mut self.random))]),
            8 => row(Kind::Member, [self.harmless(depth), row(Kind::Computed, [self.harmless(depth)])]),
            9 => self.harmless(depth),
            _ => self.any(depth),
        }
    }

    pub(super) fn harmless(&mut self, depth: usize) -> Tree {
        match self.random.below(8) {
            0 => self.string(),
            1 => self.number(),
            2 => Tree::leaf(Kind::OtherLit),
            3 => self.object(depth.min(1)),
            4 if depth > 0 => self.returned(depth - 1),
            _ => self.name(),
        }
    }

    pub(super) fn function(&mut self, depth: usize) -> Tree {
        let mut children: Vec<Tree> = (0..*self.random.pick(&[0, 0, 0, 1, 2])).map(|_| self.pattern(1)).collect();
        children.retain(|child| child.kind != Kind::Block);
        if self.random.percent(95) {
            children.push(self.getter_body(depth));
        }
        Tree::new(Kind::Function, children)
    }

    /// A function as a value: its Function, FnExpr or Arrow.
    pub(super) fn function_value(&mut self, depth: usize) -> Tree {
        match self.random.below(6) {
            0..3 => {
                let mut children = vec![self.function(depth)];
                if self.random.percent(30) {
                    children.insert(0, self.name());
                }
                Tree::new(Kind::FnExpr, children)
            }
            3 => Tree::new(Kind::Arrow, vec![self.getter_body(depth)]),
            4 => Tree::new(Kind::Arrow, vec![self.returned(depth)]),
            _ => Tree::new(Kind::Arrow, vec![self.name(), self.returned(depth)]),
        }
    }

    /// The third argument of `Object.defineProperty`.
    pub(super) fn descriptor(&mut self, depth: usize) -> Tree {
        let get = match self.random.below(8) {
            0 => Tree::text(Kind::Str, word(&mut self.random, "get")),
            1 => row(Kind::Computed, [self.word("get")]),
            _ => self.word("get"),
        };
        let getter = match self.random.below(10) {
            0..4 => row(Kind::KeyValue, [get, self.function_value(depth)]),
            4..7 => row(Kind::Method, [get, self.function(depth)]),
            7 => Tree::text(Kind::Shorthand, word(&mut self.random, "get")),
            _ => self.property_of(get, depth),
        };
        let mut properties: Vec<Tree> = (0..*self.random.pick(&[0, 0, 1, 2])).map(|_| self.property(1)).collect();
        if self.random.percent(80) {
            let place = self.random.between(0, properties.len());
            properties.insert(place, getter);
        }
        let made = Tree::new(Kind::Object, properties);
        self.mostly(made, depth)
    }

    /// `{ get: function () { return e[k]; } }`
    pub(super) fn keyed_descriptor(&mut self, key: &Tree) -> Tree {
        let value = self.keyed_by(key.clone());
        let block = row(Kind::Block, [row(Kind::Return, [value.clone()])]);
        let get = self.word("get");
        let getter = match self.random.below(6) {
            0 => row(Kind::KeyValue, [get, row(Kind::FnExpr, [row(Kind::Function, [block])])]),
            1 => row(Kind::KeyValue, [get, row(Kind::Arrow, [block])]),
            2 => row(Kind::KeyValue, [get, row(Kind::Arrow, [value])]),
            3 | 4 => row(Kind::Method, [get, row(Kind::Function, [block])]),
            _ => row(Kind::Getter, [get, block]),
        };
        let made = row(Kind::Object, [getter]);
        self.mostly(made, 1)
    }

    /// `Object.defineProperty(exports, "a", { .. })`
    pub(super) fn definition(&mut self, depth: usize) -> Tree {
        let member = row(Kind::Member, [self.word("Object"), self.property_word("defineProperty")]);
        let callee = self.callee(member);
        let key = match self.random.below(10) {
            0..6 => self.string(),
            6..9 => self.variable(),
            _ => self.any(1),
        };
        let descriptor = match key.kind {
            Kind::Ident if self.random.percent(60) => self.keyed_descriptor(&key),
            _ => self.descriptor(depth),
        };
        let mut arguments = vec![self.exports_object(), key, descriptor];
        match self.random.below(20) {
            0 => arguments.truncate(2),
            1 => arguments.push(self.any(1)),
            2 => {
                let place = self.random.below(3);
                arguments[place] = row(Kind::Spread, [arguments[place].clone()]);
            }
            _ => {}
        }
        call(callee, arguments)
    }

    /// The callee as it is, or as `(0, callee)`.
    pub(super) fn callee(&mut self, plain: Tree) -> Tree {
        if self.random.percent(75) {
            return plain;
        }
        let zero = Tree::leaf(Kind::Num).marked(u32::from(self.random.percent(90)));
        let sequence = match self.random.below(12) {
            0 => vec![zero, self.any(1), plain],
            1 => vec![zero, plain, self.any(1)],
            2 => vec![plain],
            3 => vec![plain, zero],
            _ => vec![zero, plain],
        };
        let sequence = Tree::new(Kind::Seq, sequence);
        if self.random.percent(92) { row(Kind::Paren, [sequence]) } else { sequence }
    }

    /// `__export(require("x"))` and its kin.
    pub(super) fn star_call(&mut self) -> Tree {
        let function = if self.random.percent(50) { "__export" } else { "__exportStar" };
        let plain = match self.random.below(3) {
            0 => self.word(function),
            1 => row(Kind::Member, [self.name(), self.property_word(function)]),
            _ => row(Kind::Member, [self.any(1), self.property_word(function)]),
        };
        let callee = self.callee(plain);
        let first = if self.random.percent(45) { self.variable() } else { self.required() };
        let mut arguments = self.arguments(first);
        match self.random.below(40) {
            0..15 => arguments.push(self.word("exports")),
            15 => arguments.push(self.exports_object()),
            16 => arguments.push(row(Kind::Spread, [self.word("exports")])),
            17 => arguments.extend([self.word("exports"), self.any(1)]),
            _ => {}
        }
        call(callee, arguments)
    }

    /// `Object.keys(e).forEach(function (k) { .. })`
    pub(super) fn loop_over_keys(&mut self, depth: usize) -> Tree {
        let keys = call(row(Kind::Member, [ident("Object"), ident("keys")]), vec![self.variable()]);
        let body = Tree::new(Kind::Block, (0..2).map(|_| self.statement(depth)).collect());
        let function = row(Kind::FnExpr, [row(Kind::Function, [self.variable(), body])]);
        call(row(Kind::Member, [keys, ident("forEach")]), vec![function])
    }
}
