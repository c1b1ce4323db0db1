//! The rows of a lawful block.

use crate::Kind;

const ROW_BYTES: usize = 20;

/// The rows and the text section of a lawful block.
#[derive(Clone, Copy)]
pub struct Rows<'a> {
    rows: &'a [u8],
    text: &'a [u8],
}

/// One row.
#[derive(Clone, Copy)]
pub struct Row<'a> {
    pub kind: Kind,
    pub mark: u32,
    pub text: &'a [u8],
    pub end: u32,
}

pub(crate) fn number(bytes: &[u8], at: usize) -> u32 {
    u32::from_le_bytes(bytes[at..at + 4].try_into().expect("four bytes"))
}

impl<'a> Rows<'a> {
    /// The rows of a block that is lawful. Panics where its header is not.
    pub fn of_lawful(block: &'a [u8]) -> Rows<'a> {
        let part = |at| {
            let offset = number(block, at) as usize;
            &block[offset..offset + number(block, at + 4) as usize]
        };
        Rows { rows: part(0), text: part(8) }
    }

    pub fn count(&self) -> u32 {
        (self.rows.len() / ROW_BYTES) as u32
    }

    pub fn row(&self, row: u32) -> Row<'a> {
        let at = row as usize * ROW_BYTES;
        let [kind, mark, offset, length, end] = [0, 4, 8, 12, 16].map(|field| number(self.rows, at + field));
        let kind = Kind::from_number(kind).expect("a kind of the table");
        Row { kind, mark, text: &self.text[offset as usize..][..length as usize], end }
    }

    /// The numbers of the rows directly below one.
    pub fn children(&self, row: u32) -> Children<'a> {
        Children { rows: *self, next: row + 1, end: self.row(row).end }
    }
}

pub struct Children<'a> {
    rows: Rows<'a>,
    next: u32,
    end: u32,
}

impl Iterator for Children<'_> {
    type Item = u32;

    fn next(&mut self) -> Option<u32> {
        if self.next >= self.end {
            return None;
        }
        let child = self.next;
        self.next = self.rows.row(child).end;
        Some(child)
    }
}
