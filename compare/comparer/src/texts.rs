//! The texts of generated trees: few, so that equal ones meet.

use crate::random::Random;

/// Words that a rule asks for, each with words that it could be taken for.
const WORDS: [(&str, &[&str]); 10] = [
    ("exports", &["export", "Exports", "exports1", "__exports"]),
    ("module", &["modules", "Module", "exports"]),
    ("require", &["requires", "Require", "__require"]),
    ("Object", &["object", "Objects", "Reflect"]),
    ("defineProperty", &["defineproperty", "defineProperties", "definePropert"]),
    ("__export", &["_export", "__exports", "__exportStar"]),
    ("__exportStar", &["__exportstar", "__exportStars", "__export"]),
    ("_interopRequireWildcard", &["_interopRequireDefault", "interopRequireWildcard", "require"]),
    ("get", &["Get", "gets", "set", "value"]),
    ("default", &["Default", "__esModule"]),
];

const NAMES: [&str; 8] = ["a", "b", "c", "e", "k", "t", "x", "tslib"];

const FOREIGN: [&str; 5] = ["", "\u{E9}", "\u{FFFD}", "\u{1F600}", "a\u{FFFD}"];

const SPECIFIERS: [&str; 6] = ["x", "y", "./x", "a", "b", "e"];

/// WTF-8 texts that hold surrogates, some with equal loose readings.
const SURROGATES: [&[u8]; 8] = [
    b"\xED\xA0\x80",
    b"\xED\xB0\x80",
    b"\xED\xBF\xBF",
    b"a\xED\xA0\x80",
    b"a\xED\xAF\xBF",
    b"\xED\xB0\x80\xED\xA0\x80",
    b"\xED\xA0\x80a",
    b"\xED\xA0\x80\xED\xA0\x81",
];

/// The word, or at times another one.
pub fn word(random: &mut Random, wanted: &str) -> String {
    match random.below(40) {
        0 => near(random, wanted),
        1 => any_word(random),
        2 => name(random),
        _ => wanted.to_string(),
    }
}

fn near(random: &mut Random, wanted: &str) -> String {
    let near = WORDS.iter().find(|(word, _)| *word == wanted).map_or(&NAMES[..], |(_, near)| near);
    random.pick(near).to_string()
}

/// One of the words that rules ask for.
pub fn any_word(random: &mut Random) -> String {
    random.pick(&WORDS).0.to_string()
}

/// The name of a variable, a property or an export.
pub fn name(random: &mut Random) -> String {
    match random.below(20) {
        0 => any_word(random),
        1 => {
            let word = any_word(random);
            near(random, &word)
        }
        2 => random.pick(&FOREIGN).to_string(),
        _ => random.pick(&NAMES).to_string(),
    }
}

/// The name of a variable, from fewer.
pub fn variable(random: &mut Random) -> String {
    match random.below(10) {
        0 => name(random),
        _ => random.pick(&NAMES[3..5]).to_string(),
    }
}

/// The text of a string literal.
pub fn string(random: &mut Random) -> Vec<u8> {
    match random.below(12) {
        0 | 1 => random.pick(&SURROGATES).to_vec(),
        2 => random.pick(&FOREIGN).as_bytes().to_vec(),
        3 => name(random).into_bytes(),
        _ => random.pick(&SPECIFIERS).as_bytes().to_vec(),
    }
}
