//! A notation for trees in words.
//!
//! ```text
//! Program:1(Assign(Member(exports, a), Num))
//! ```
//!
//! A row is its kind, then `:` and its mark if that is not 0, then its text in quotes, then its children in
//! parentheses. A word that begins with a small letter, `_` or `$` is an Ident, and a text in quotes alone is a Str.
//! In a text, `\"` `\\` `\n` `\t` `\r` stand for one character, and `\uD800` or `\u{1F600}` for a code point, which may
//! be a surrogate; a lead one before a trail one is one code point. `@` before a row says that its text shares bytes
//! with an equal one. Here equal texts always do, for no answer depends on it.

use crate::{Kind, Tree};
use std::fmt;
use std::iter::Peekable;
use std::str::Chars;

/// Why words are no tree, and how many characters were left to read.
#[derive(Debug, PartialEq, Eq)]
pub struct Mistake {
    pub what: &'static str,
    pub left: usize,
}

impl fmt::Display for Mistake {
    fn fmt(&self, f: &mut fmt::Formatter) -> fmt::Result {
        write!(f, "{}, {} characters before the end", self.what, self.left)
    }
}

impl std::error::Error for Mistake {}

/// The tree that words write.
pub fn parse(words: &str) -> Result<Tree, Mistake> {
    let mut reader = Reader { left: words.chars().peekable() };
    let tree = reader.row()?;
    match reader.peek() {
        None => Ok(tree),
        Some(_) => Err(reader.mistake("the tree ends here")),
    }
}

struct Reader<'a> {
    left: Peekable<Chars<'a>>,
}

impl Reader<'_> {
    fn mistake(&self, what: &'static str) -> Mistake {
        Mistake { what, left: self.left.clone().count() }
    }

    /// The next character that is no space.
    fn peek(&mut self) -> Option<char> {
        while self.left.next_if(|character| character.is_whitespace()).is_some() {}
        self.left.peek().copied()
    }

    fn takes(&mut self, sign: char) -> bool {
        self.peek() == Some(sign) && self.left.next().is_some()
    }

    fn word(&mut self) -> String {
        let mut word = String::new();
        while let Some(next) = self.left.next_if(|next| next.is_alphanumeric() || "_$".contains(*next)) {
            word.push(next);
        }
        word
    }

    fn row(&mut self) -> Result<Tree, Mistake> {
        self.takes('@');
        let mut tree = match self.peek() {
            Some('"') => Tree::text(Kind::Str, self.quoted()?),
            _ => self.named()?,
        };
        if self.takes('(') {
            tree.children = self.children()?;
        }
        Ok(tree)
    }

    /// A row that begins with a word.
    fn named(&mut self) -> Result<Tree, Mistake> {
        let word = self.word();
        if is_short(&word) {
            return Ok(Tree::text(Kind::Ident, word));
        }
        let kind = Kind::all_but_program().chain([Kind::Program]).find(|kind| kind.name() == word);
        let mut tree = Tree::leaf(kind.ok_or_else(|| self.mistake("a row begins with no kind"))?);
        if self.takes(':') {
            tree.mark = self.word().parse().map_err(|_| self.mistake("a mark is no number"))?;
        }
        if self.peek() == Some('"') {
            tree.text = self.quoted()?;
        }
        Ok(tree)
    }

    fn children(&mut self) -> Result<Vec<Tree>, Mistake> {
        let mut children = Vec::new();
        loop {
            children.push(self.row()?);
            match self.peek() {
                Some(',') => self.left.next(),
                Some(')') => break,
                _ => return Err(self.mistake("`,` or `)` is missing")),
            };
        }
        self.left.next();
        Ok(children)
    }

    fn quoted(&mut self) -> Result<Vec<u8>, Mistake> {
        self.left.next();
        let mut points = Vec::new();
        loop {
            match self.left.next() {
                Some('"') => return Ok(wtf8(&points)),
                Some('\\') => points.push(self.escape()?),
                Some(character) => points.push(character as u32),
                None => return Err(self.mistake("a text has no end")),
            }
        }
    }

    fn escape(&mut self) -> Result<u32, Mistake> {
        match self.left.next() {
            Some(sign @ ('"' | '\\')) => Ok(sign as u32),
            Some('n') => Ok('\n' as u32),
            Some('t') => Ok('\t' as u32),
            Some('r') => Ok('\r' as u32),
            Some('u') => self.code_point().ok_or_else(|| self.mistake("`\\u` stands before no code point")),
            _ => Err(self.mistake("`\\` stands before no sign that it belongs to")),
        }
    }

    fn code_point(&mut self) -> Option<u32> {
        let digits: String = match self.left.next_if_eq(&'{') {
            Some(_) => self.left.by_ref().take_while(|&digit| digit != '}').collect(),
            None => self.left.by_ref().take(4).collect(),
        };
        u32::from_str_radix(&digits, 16).ok().filter(|&point| point <= 0x10FFFF)
    }
}

/// Whether a word alone is an Ident.
fn is_short(word: &str) -> bool {
    word.starts_with(|first: char| first.is_ascii_lowercase() || "_$".contains(first))
        && word.chars().all(|next| next.is_ascii_alphanumeric() || "_$".contains(next))
}

/// The bytes of code points. A lead surrogate and a trail one after it are one code point.
fn wtf8(points: &[u32]) -> Vec<u8> {
    let (mut bytes, mut points) = (Vec::new(), points);
    while let [first, rest @ ..] = points {
        points = rest;
        let mut point = *first;
        if let (0xD800..=0xDBFF, Some(trail @ 0xDC00..=0xDFFF)) = (point, rest.first().copied()) {
            point = 0x10000 + ((point - 0xD800) << 10) + (trail - 0xDC00);
            points = &rest[1..];
        }
        match char::from_u32(point) {
            Some(character) => bytes.extend_from_slice(character.encode_utf8(&mut [0; 4]).as_bytes()),
            None => {
                bytes.extend([0xE0 | point >> 12, 0x80 | point >> 6 & 0x3F, 0x80 | point & 0x3F].map(|byte| byte as u8))
            }
        }
    }
    bytes
}

impl fmt::Display for Tree {
    fn fmt(&self, f: &mut fmt::Formatter) -> fmt::Result {
        match (self.kind, std::str::from_utf8(&self.text)) {
            (Kind::Ident, Ok(word)) if is_short(word) => f.write_str(word)?,
            (Kind::Str, _) => quote(&self.text, f)?,
            _ => write_head(self, f)?,
        }
        let [first, rest @ ..] = &self.children[..] else { return Ok(()) };
        write!(f, "({first}")?;
        rest.iter().try_for_each(|child| write!(f, ", {child}"))?;
        f.write_str(")")
    }
}

fn write_head(tree: &Tree, f: &mut fmt::Formatter) -> fmt::Result {
    f.write_str(&tree.kind.name())?;
    if tree.mark != 0 {
        write!(f, ":{}", tree.mark)?;
    }
    match tree.kind.line().text {
        crate::kinds::TextForm::NoText => Ok(()),
        _ => quote(&tree.text, f),
    }
}

fn quote(text: &[u8], f: &mut fmt::Formatter) -> fmt::Result {
    f.write_str("\"")?;
    let mut left = text;
    while let Some(&first) = left.first() {
        let plain = (1..=left.len().min(4)).find_map(|length| std::str::from_utf8(&left[..length]).ok());
        match (plain, left) {
            (Some(character), _) => {
                write_character(character, f)?;
                left = &left[character.len()..];
            }
            (None, [0xED, second @ 0xA0..=0xBF, third @ 0x80..=0xBF, ..]) => {
                let point = 0xD000 | u32::from(second & 0x3F) << 6 | u32::from(third & 0x3F);
                write!(f, "\\u{{{point:X}}}")?;
                left = &left[3..];
            }
            _ => {
                write!(f, "\\?{first:02X}")?;
                left = &left[1..];
            }
        }
    }
    f.write_str("\"")
}

fn write_character(character: &str, f: &mut fmt::Formatter) -> fmt::Result {
    match character {
        "\"" | "\\" => write!(f, "\\{character}"),
        "\n" => f.write_str("\\n"),
        "\t" => f.write_str("\\t"),
        "\r" => f.write_str("\\r"),
        _ if character.chars().all(|it| it.is_control() || it == '\u{FFFD}') => {
            character.chars().try_for_each(|it| write!(f, "\\u{{{:X}}}", it as u32))
        }
        _ => f.write_str(character),
    }
}

#[cfg(test)]
mod tests {
    use super::*;
    use crate::Rows;

    fn again(words: &str) -> String {
        parse(words).unwrap().to_string()
    }

    #[test]
    fn prints_what_it_reads() {
        let words = r#"Program:1(Assign(Member(exports, a), Num:1), Ident"Object", "\"\\\n\u{D800}", Shorthand"Ä")"#;
        assert_eq!(again(words), words);
    }

    #[test]
    fn takes_a_pair_for_one_code_point() {
        assert_eq!(again(r#"Program("\uD83D\uDE00")"#), "Program(\"\u{1F600}\")");
        assert_eq!(again(r#"Program("\uDE00\uD83D")"#), r#"Program("\u{DE00}\u{D83D}")"#);
    }

    #[test]
    fn makes_the_block_of_the_worked_example() {
        let block = parse("Program:1(Assign(Member(exports, a), Num))").unwrap().block();
        let header = [16, 120, 136, 8].map(u32::to_le_bytes).concat();
        assert_eq!(block[..16], header);
        assert_eq!(block.len(), 144);
        assert_eq!(block[136..], *b"exportsa");
        assert_eq!(Tree::of_rows(Rows::of_lawful(&block)).to_string(), "Program:1(Assign(Member(exports, a), Num))");
    }

    #[test]
    fn refuses_what_is_no_tree() {
        for words in
            ["", "Program(", "Program()", "Program(a", "Program(a b)", "Program a", "Object(Foo)", "\"a", r#""\q""#]
        {
            assert!(parse(words).is_err(), "{words}");
        }
    }
}
