//! Whether bytes are a lawful tree block; if not, which refusal they get.

use crate::kinds::{Line, TextForm};
use crate::rows::number;
use crate::{Kind, Rows};

const MOST_BYTES: usize = 4_194_304;
const MOST_ROWS_BYTES: u64 = 1_310_720;
const DEEPEST: usize = 256;

/// A refusal of a tree block, 1 to 5, and its place.
#[derive(Clone, Copy, Debug, PartialEq, Eq)]
pub struct Fault {
    pub number: u32,
    pub place: u32,
}

/// The five numbers of a row, before anything is known of them.
struct Raw {
    kind: u32,
    mark: u32,
    offset: u32,
    length: u32,
    end: u32,
}

/// The rows of a block, or its refusal.
pub fn check(block: &[u8]) -> Result<Rows<'_>, Fault> {
    let header = header(block).ok_or(Fault { number: 1, place: 0 })?;
    let (rows, text) = header;
    let raw: Vec<Raw> = rows.chunks(20).map(raw).collect();
    let refused = |number| move |place| Err(Fault { number, place: place as u32 });
    first_unlawful_end(&raw).map_or(Ok(()), refused(2))?;
    first_too_deep(&raw).map_or(Ok(()), refused(3))?;
    first_misshapen(&raw).map_or(Ok(()), refused(4))?;
    first_bad_text(&raw, text).map_or(Ok(()), refused(5))?;
    Ok(Rows::of_lawful(block))
}

/// The two sections, where the header is lawful.
fn header(block: &[u8]) -> Option<(&[u8], &[u8])> {
    if !(16..=MOST_BYTES).contains(&block.len()) {
        return None;
    }
    let [rows, rows_length, text, text_length] = [0, 4, 8, 12].map(|at| u64::from(number(block, at)));
    let lawful = rows >= 16
        && rows_length > 0
        && rows_length % 20 == 0
        && rows_length <= MOST_ROWS_BYTES
        && rows + rows_length <= text
        && text + text_length <= block.len() as u64;
    let part = |offset: u64, length: u64| &block[offset as usize..(offset + length) as usize];
    lawful.then(|| (part(rows, rows_length), part(text, text_length)))
}

fn raw(bytes: &[u8]) -> Raw {
    let [kind, mark, offset, length, end] = [0, 4, 8, 12, 16].map(|at| number(bytes, at));
    Raw { kind, mark, offset, length, end }
}

/// Asks a question of each row in turn, with the ends of the rows that enclose it. The ends before it are lawful.
fn first_where(rows: &[Raw], mut is_bad: impl FnMut(usize, &[u32]) -> bool) -> Option<usize> {
    let mut open = Vec::new();
    for (at, row) in rows.iter().enumerate() {
        while open.last().is_some_and(|&end| end as usize <= at) {
            open.pop();
        }
        if is_bad(at, &open) {
            return Some(at);
        }
        open.push(row.end);
    }
    None
}

fn first_unlawful_end(rows: &[Raw]) -> Option<usize> {
    first_where(rows, |at, open| {
        let end = rows[at].end as usize;
        match open.last() {
            None => end != rows.len() || at != 0,
            Some(&enclosing) => end <= at || end > enclosing as usize,
        }
    })
}

fn first_too_deep(rows: &[Raw]) -> Option<usize> {
    first_where(rows, |_, open| open.len() > DEEPEST)
}

fn first_misshapen(rows: &[Raw]) -> Option<usize> {
    (0..rows.len()).find(|&at| !has_lawful_shape(rows, at))
}

fn has_lawful_shape(rows: &[Raw], at: usize) -> bool {
    let row = &rows[at];
    let Some(kind) = Kind::from_number(row.kind) else { return false };
    let line = kind.line();
    let children = child_kinds(rows, at);
    row.mark <= line.highest_mark
        && (at == 0) == (kind == Kind::Program)
        && fits(line, &children)
        && !(kind == Kind::Program && row.mark == 1 && children.iter().flatten().any(|child| child.is_module_item()))
}

/// The kinds of the children; `None` for a number that is no kind.
fn child_kinds(rows: &[Raw], at: usize) -> Vec<Option<Kind>> {
    let (mut kinds, mut child) = (Vec::new(), at + 1);
    while child < rows[at].end as usize {
        kinds.push(Kind::from_number(rows[child].kind));
        child = rows[child].end as usize;
    }
    kinds
}

fn fits(line: &Line, children: &[Option<Kind>]) -> bool {
    let count = children.len();
    (line.fewest..=line.most).contains(&count)
        && children.iter().enumerate().all(|(place, child)| match child {
            Some(kind) => line.group(place, count).has(*kind),
            None => line.group(place, count).has_every_number(),
        })
}

fn first_bad_text(rows: &[Raw], text: &[u8]) -> Option<usize> {
    rows.iter().position(|row| !has_lawful_text(row, text))
}

fn has_lawful_text(row: &Raw, text: &[u8]) -> bool {
    let form = Kind::from_number(row.kind).expect("the shape was lawful").line().text;
    let (offset, length) = (row.offset as usize, row.length as usize);
    let bytes = text.get(offset..offset + length);
    match form {
        TextForm::NoText => (offset, length) == (0, 0),
        TextForm::Utf8 => bytes.is_some_and(|bytes| std::str::from_utf8(bytes).is_ok()),
        TextForm::Wtf8 => bytes.is_some_and(is_wtf8),
    }
}

/// The kind of surrogate that three bytes encode.
#[derive(PartialEq)]
enum Surrogate {
    Lead,
    Trail,
}

fn surrogate(bytes: &[u8]) -> Option<Surrogate> {
    match bytes {
        [0xED, 0xA0..=0xAF, 0x80..=0xBF, ..] => Some(Surrogate::Lead),
        [0xED, 0xB0..=0xBF, 0x80..=0xBF, ..] => Some(Surrogate::Trail),
        _ => None,
    }
}

/// UTF-8 with surrogates in between, no lead one directly before a trail one.
fn is_wtf8(mut bytes: &[u8]) -> bool {
    let mut after_lead = false;
    while !bytes.is_empty() {
        match surrogate(bytes) {
            Some(Surrogate::Trail) if after_lead => return false,
            Some(found) => {
                after_lead = found == Surrogate::Lead;
                bytes = &bytes[3..];
            }
            None => {
                after_lead = false;
                let plain = (1..=bytes.len().min(4)).find(|&n| std::str::from_utf8(&bytes[..n]).is_ok());
                let Some(length) = plain else { return false };
                bytes = &bytes[length..];
            }
        }
    }
    true
}
