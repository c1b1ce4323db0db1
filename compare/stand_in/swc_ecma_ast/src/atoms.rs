//! Texts of a tree: identifiers, and string literals, which may hold surrogates.

use std::borrow::Cow;
use std::fmt;
use std::ops::Deref;

/// The text of an identifier.
#[derive(Clone, Debug, PartialEq, Eq)]
pub struct Atom(Box<str>);

impl From<&str> for Atom {
    fn from(text: &str) -> Self {
        Atom(text.into())
    }
}

impl Deref for Atom {
    type Target = str;

    fn deref(&self) -> &str {
        &self.0
    }
}

impl PartialEq<str> for Atom {
    fn eq(&self, other: &str) -> bool {
        &*self.0 == other
    }
}

impl fmt::Display for Atom {
    fn fmt(&self, f: &mut fmt::Formatter) -> fmt::Result {
        f.write_str(&self.0)
    }
}

/// The text of a string literal, in WTF-8.
#[derive(Clone, Debug)]
pub struct Wtf8Atom(Box<Wtf8>);

impl From<&[u8]> for Wtf8Atom {
    fn from(bytes: &[u8]) -> Self {
        Wtf8Atom(Box::new(Wtf8(bytes.into())))
    }
}

impl Deref for Wtf8Atom {
    type Target = Wtf8;

    fn deref(&self) -> &Wtf8 {
        &self.0
    }
}

/// Bytes in WTF-8.
#[derive(Clone, Debug)]
pub struct Wtf8(Box<[u8]>);

impl Wtf8 {
    /// The plain reading: the text, absent where it holds a surrogate.
    pub fn as_str(&self) -> Option<&str> {
        std::str::from_utf8(&self.0).ok()
    }

    /// The loose reading: each surrogate is U+FFFD.
    pub fn to_string_lossy(&self) -> Cow<'_, str> {
        match self.as_str() {
            Some(text) => Cow::Borrowed(text),
            None => Cow::Owned(loose(&self.0)),
        }
    }
}

/// A surrogate takes three bytes, `ED` and a second one from `A0` on; no other code point has these two.
fn loose(wtf8: &[u8]) -> String {
    let mut bytes = wtf8.to_vec();
    for at in 1..bytes.len() {
        if bytes[at - 1] == 0xED && bytes[at] >= 0xA0 {
            bytes[at - 1..at + 2].copy_from_slice("\u{FFFD}".as_bytes());
        }
    }
    String::from_utf8(bytes).expect("WTF-8 without surrogates is UTF-8")
}
