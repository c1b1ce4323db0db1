//! Trees made by hand.

use crate::{Kind, Rows, check};
use std::collections::HashMap;

/// A row with its text and all below it. The text is in WTF-8 and empty where the kind has none.
#[derive(Clone, Debug, PartialEq, Eq, Hash)]
pub struct Tree {
    pub kind: Kind,
    pub mark: u32,
    pub text: Vec<u8>,
    pub children: Vec<Tree>,
}

impl Tree {
    pub fn new(kind: Kind, children: Vec<Tree>) -> Tree {
        Tree { kind, mark: 0, text: Vec::new(), children }
    }

    pub fn leaf(kind: Kind) -> Tree {
        Tree::new(kind, Vec::new())
    }

    pub fn text(kind: Kind, text: impl AsRef<[u8]>) -> Tree {
        Tree { text: text.as_ref().to_vec(), ..Tree::leaf(kind) }
    }

    pub fn marked(self, mark: u32) -> Tree {
        Tree { mark, ..self }
    }

    /// How many rows it takes.
    pub fn rows(&self) -> usize {
        1 + self.children.iter().map(Tree::rows).sum::<usize>()
    }

    /// How many rows stand above one another in it.
    pub fn depth(&self) -> usize {
        1 + self.children.iter().map(Tree::depth).max().unwrap_or(0)
    }

    /// How many bytes its texts have.
    pub fn text_bytes(&self) -> usize {
        self.text.len() + self.children.iter().map(Tree::text_bytes).sum::<usize>()
    }

    /// Whether its block is lawful.
    pub fn is_lawful(&self) -> bool {
        check(&self.block()).is_ok()
    }

    /// Its block. Equal texts share their bytes.
    pub fn block(&self) -> Vec<u8> {
        let mut maker = Maker::default();
        maker.add(self);
        let text_offset = 16 + maker.rows.len() as u32 * 20;
        let header = [16, text_offset - 16, text_offset, maker.text.len() as u32];
        let numbers = header.iter().chain(maker.rows.iter().flatten());
        let mut block: Vec<u8> = numbers.flat_map(|number| number.to_le_bytes()).collect();
        block.append(&mut maker.text);
        block
    }

    /// The tree of a lawful block.
    pub fn of_rows(rows: Rows) -> Tree {
        Tree::of_row(rows, 0)
    }

    fn of_row(rows: Rows, number: u32) -> Tree {
        let row = rows.row(number);
        let children = rows.children(number).map(|child| Tree::of_row(rows, child)).collect();
        Tree { kind: row.kind, mark: row.mark, text: row.text.to_vec(), children }
    }

    /// The row at a path: which child at each step down.
    pub fn at(&self, path: &[usize]) -> &Tree {
        path.iter().fold(self, |tree, &child| &tree.children[child])
    }

    pub fn at_mut(&mut self, path: &[usize]) -> &mut Tree {
        path.iter().fold(self, |tree, &child| &mut tree.children[child])
    }

    /// The paths of all rows, each row before those below it.
    pub fn paths(&self) -> Vec<Vec<usize>> {
        let mut paths = vec![Vec::new()];
        for (number, child) in self.children.iter().enumerate() {
            paths.extend(child.paths().into_iter().map(|path| [vec![number], path].concat()));
        }
        paths
    }
}

#[derive(Default)]
struct Maker {
    rows: Vec<[u32; 5]>,
    text: Vec<u8>,
    known: HashMap<Vec<u8>, u32>,
}

impl Maker {
    fn add(&mut self, tree: &Tree) {
        let at = self.rows.len();
        let offset = self.offset(&tree.text);
        self.rows.push([tree.kind.number(), tree.mark, offset, tree.text.len() as u32, 0]);
        tree.children.iter().for_each(|child| self.add(child));
        self.rows[at][4] = self.rows.len() as u32;
    }

    fn offset(&mut self, text: &[u8]) -> u32 {
        if text.is_empty() {
            return 0;
        }
        if let Some(&offset) = self.known.get(text) {
            return offset;
        }
        let offset = self.text.len() as u32;
        self.text.extend_from_slice(text);
        self.known.insert(text.to_vec(), offset);
        offset
    }
}
