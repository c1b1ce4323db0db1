//! From a tree on which two programs disagree to a smallest one.

use blocks::{Kind, Tree};
use std::io;

/// Up to so many rows a row is also replaced by any row below it.
const MOST_ROWS: usize = 100;

/// The size by which trees are compared: rows, then bytes of text, then marks and kinds that are not Other.
fn size(tree: &Tree) -> (usize, usize, usize) {
    (tree.rows(), tree.text_bytes(), special(tree))
}

fn special(tree: &Tree) -> usize {
    let here = usize::from(tree.kind != Kind::Other) + tree.mark as usize;
    here + tree.children.iter().map(special).sum::<usize>()
}

/// Judges for many trees at once whether they are still what is looked for.
pub type Still<'a> = dyn FnMut(&[Tree]) -> io::Result<Vec<bool>> + 'a;

/// A tree of which no single reduction is still one that is looked for.
pub fn shrink(tree: Tree, still: &mut Still) -> io::Result<Tree> {
    let mut smallest = with_fewer_items(tree, still)?;
    loop {
        let mut smaller: Vec<Tree> = reductions(&smallest).into_iter().filter(Tree::is_lawful).collect();
        smaller.sort_by_key(size);
        smaller.dedup();
        match first(smaller, still)? {
            Some(tree) => smallest = tree,
            None => return Ok(smallest),
        }
    }
}

fn first(trees: Vec<Tree>, still: &mut Still) -> io::Result<Option<Tree>> {
    let holds = still(&trees)?;
    Ok(trees.into_iter().zip(holds).find(|(_, holds)| *holds).map(|(tree, _)| tree))
}

/// The tree without as many of the Program's children as can be left out at once.
fn with_fewer_items(mut tree: Tree, still: &mut Still) -> io::Result<Tree> {
    let mut length = tree.children.len();
    while length > 0 {
        let starts = (0..tree.children.len()).step_by(length);
        let without = |start| {
            let mut tree = tree.clone();
            tree.children.drain(start..tree.children.len().min(start + length));
            tree
        };
        match first(starts.map(without).collect(), still)? {
            Some(smaller) => tree = smaller,
            None => length /= 2,
        }
    }
    Ok(tree)
}

/// The trees that are smaller by one step.
fn reductions(tree: &Tree) -> Vec<Tree> {
    let whole = size(tree);
    let paths = tree.paths();
    let mut made: Vec<Tree> = paths.iter().flat_map(|path| reductions_at(tree, path)).collect();
    made.retain(|reduced| size(reduced) < whole);
    made
}

fn reductions_at(tree: &Tree, path: &[usize]) -> Vec<Tree> {
    let here = tree.at(path);
    let mut made = Vec::new();
    let mut push = |changed: Tree| {
        let mut tree = tree.clone();
        *tree.at_mut(path) = changed;
        made.push(tree);
    };
    if !path.is_empty() {
        inner(here, tree.rows() <= MOST_ROWS).for_each(|path| push(here.at(&path).clone()));
        push(Tree::text(Kind::Ident, "exports"));
    }
    for (number, child) in here.children.iter().enumerate() {
        let mut without = here.clone();
        without.children.remove(number);
        push(without.clone());
        without.children.splice(number..number, child.children.iter().cloned());
        push(without);
    }
    push(Tree { mark: 0, ..here.clone() });
    if !here.text.is_empty() {
        push(Tree { text: Vec::new(), ..here.clone() });
        push(Tree { text: b"a".to_vec(), ..here.clone() });
    }
    if !path.is_empty() {
        push(Tree { kind: Kind::Other, mark: 0, text: Vec::new(), children: here.children.clone() });
        push(Tree::leaf(Kind::Other));
    }
    made
}

/// The paths of the rows below. In a large tree only of those one, two, four, eight .. rows down.
fn inner(tree: &Tree, all: bool) -> impl Iterator<Item = Vec<usize>> {
    tree.paths().into_iter().filter(move |path| !path.is_empty() && (all || path.len().is_power_of_two()))
}
