//! The differences between the reference and the rules that docs/DIFFERENCES.md states. Each is told by a tree on which
//! the reference answers what the rules say of the tree given.

use blocks::{Kind, Tree};

pub struct Difference {
    pub name: &'static str,
    /// Whether a row is where the reference and the rules part, and its change.
    restate: fn(&mut Tree) -> bool,
    /// Whether only children of the Program are such rows.
    on_top: bool,
}

pub static STATED: [Difference; 2] = [
    Difference { name: "a Spread around the first argument of require", restate: hide_spread, on_top: false },
    Difference { name: "the default export of a type", restate: drop_type, on_top: true },
];

/// The tree on which the reference follows the rules, and the differences that it shows.
pub fn restated(tree: &Tree) -> (Tree, Vec<&'static str>) {
    let mut tree = tree.clone();
    let mut shown = Vec::new();
    for difference in &STATED {
        let hits = match difference.on_top {
            true => tree.children.iter_mut().map(difference.restate).map(usize::from).sum(),
            false => everywhere(&mut tree, difference.restate),
        };
        if hits > 0 {
            shown.push(difference.name);
        }
    }
    (tree, shown)
}

/// How many rows it changed.
fn everywhere(tree: &mut Tree, restate: fn(&mut Tree) -> bool) -> usize {
    let here = usize::from(restate(tree));
    here + tree.children.iter_mut().map(|child| everywhere(child, restate)).sum::<usize>()
}

/// The words whose calls lead to a specifier.
const ASKING: [&[u8]; 2] = [b"require", b"_interopRequireWildcard"];

/// Which of the words a Call's callee is.
fn asking(tree: &Tree) -> Option<&'static [u8]> {
    let callee = tree.children.first().filter(|callee| tree.kind == Kind::Call && callee.kind == Kind::Ident)?;
    ASKING.into_iter().find(|word| *word == callee.text)
}

/// The reference sees through the Spread. An Other in place of what is spread hides it; the walk finds nothing less in
/// it, for no rule acts at the rows that are changed.
fn hide_spread(tree: &mut Tree) -> bool {
    let asking_for_text = asking(tree).map(|word| word == ASKING[0]);
    let argument = tree.children.get_mut(1).filter(|argument| argument.kind == Kind::Spread);
    let (Some(for_text), Some(argument)) = (asking_for_text, argument) else { return false };
    let spread = &mut argument.children[0];
    let hit = if for_text { spread.kind == Kind::Str } else { asking(spread).is_some() };
    if hit {
        spread.kind = Kind::Other;
        spread.text.clear();
    }
    hit
}

/// The reference lists `default`. An Import in its place lists nothing, and tells the script test the same.
fn drop_type(tree: &mut Tree) -> bool {
    let hit = tree.kind == Kind::ExportDefault && tree.children[0].kind == Kind::TypeDecl;
    if hit {
        tree.kind = Kind::Import;
    }
    hit
}
