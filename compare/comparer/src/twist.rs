//! Small changes to a tree that leave it lawful. They make the near misses that no shape was written for.

use crate::generate::Generator;
use crate::texts::{any_word, name, string};
use blocks::kinds::TextForm;
use blocks::{Kind, Tree};

const TRIES: usize = 8;
const WRAPS: [Kind; 12] = [
    Kind::Paren,
    Kind::Spread,
    Kind::Other,
    Kind::Computed,
    Kind::Seq,
    Kind::Block,
    Kind::Arrow,
    Kind::Return,
    Kind::Object,
    Kind::RestPat,
    Kind::TypeDecl,
    Kind::ExportDefault,
];

/// The tree with one change; as it was, where no change that was tried is lawful.
pub fn twist(generator: &mut Generator, tree: Tree) -> Tree {
    for _ in 0..TRIES {
        let changed = changed(generator, &tree);
        if changed != tree && changed.is_lawful() {
            return changed;
        }
    }
    tree
}

fn changed(generator: &mut Generator, tree: &Tree) -> Tree {
    let paths = tree.paths();
    let path = generator.random.pick(&paths);
    let mut changed = tree.clone();
    let at = changed.at_mut(path);
    match generator.random.below(10) {
        0 => *at = generator.any(2),
        1 => *at = tree.at(generator.random.pick::<Vec<usize>>(&paths)).clone(),
        2 | 3 => *at = Tree::new(*generator.random.pick(&WRAPS), vec![at.clone()]),
        4 => at.kind = *generator.random.pick(&Kind::all_but_program().collect::<Vec<_>>()),
        5 if !at.children.is_empty() => {
            let child = generator.random.below(at.children.len());
            at.children.remove(child);
        }
        6 => {
            let place = generator.random.between(0, at.children.len());
            let child = at.children.get(place).cloned();
            at.children.insert(place, child.unwrap_or_else(|| generator.any(1)));
        }
        7 => at.mark ^= 1,
        8 if at.children.len() > 1 => {
            let (a, b) = (generator.random.below(at.children.len()), generator.random.below(at.children.len()));
            at.children.swap(a, b);
        }
        _ => at.text = text(generator, at.kind),
    }
    if at.kind.line().text == TextForm::NoText {
        at.text.clear();
    }
    changed
}

fn text(generator: &mut Generator, kind: Kind) -> Vec<u8> {
    match (kind.line().text, generator.random.below(3)) {
        (_, 0) => any_word(&mut generator.random).into_bytes(),
        (TextForm::Wtf8, 1) => string(&mut generator.random),
        _ => name(&mut generator.random).into_bytes(),
    }
}
