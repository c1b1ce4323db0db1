//! Wrong readings of the rules: edits of the reference's sources, or of what stands in for swc.

use std::path::{Path, PathBuf};
use std::{fs, io};

/// A wrong reading, as `wrong-readings.txt` has it.
pub struct WrongReading {
    pub name: String,
    /// Why no block can tell it apart, if none can.
    pub equivalent: Option<String>,
    edits: Vec<Edit>,
}

#[derive(Clone, Default)]
struct Edit {
    file: String,
    old: String,
    new: String,
}

fn error(what: String) -> io::Error {
    io::Error::other(what)
}

/// `\n` is the end of a line and `\\` a backslash.
fn unescaped(words: &str) -> String {
    let plain = |part: &str| part.replace("\\n", "\n");
    words.split("\\\\").map(plain).collect::<Vec<_>>().join("\\")
}

/// The wrong readings that a text lists.
pub fn parse(text: &str) -> io::Result<Vec<WrongReading>> {
    let mut readings: Vec<WrongReading> = Vec::new();
    for line in text.lines().filter(|line| !line.is_empty() && !line.starts_with('#')) {
        let (field, words) = line.split_once(':').ok_or_else(|| error(format!("no field: {line}")))?;
        let words = words.strip_prefix(' ').unwrap_or(words);
        match (field, readings.last_mut()) {
            ("name", _) => readings.push(WrongReading { name: words.to_string(), equivalent: None, edits: Vec::new() }),
            ("equivalent", Some(reading)) => reading.equivalent = Some(words.to_string()),
            ("file", Some(reading)) => reading.edits.push(Edit { file: words.to_string(), ..Edit::default() }),
            ("old" | "new", Some(WrongReading { edits, .. })) if !edits.is_empty() => {
                let edit = edits.last_mut().expect("there is one");
                *(if field == "old" { &mut edit.old } else { &mut edit.new }) = unescaped(words);
            }
            _ => return Err(error(format!("no reading or edit before: {line}"))),
        }
    }
    Ok(readings)
}

/// A copy of the workspace and of the reference's sources, to be spoiled.
pub struct Copy {
    pub folder: PathBuf,
}

const CRATES: [&str; 3] = ["stand_in", "blocks", "reference"];
const SOURCES: [&str; 3] = ["cjs_parse.rs", "exports.rs", "parsed_source.rs"];

impl Copy {
    /// Copies what the reference is built of.
    pub fn new(workspace: &Path, sources: &Path, folder: PathBuf) -> io::Result<Copy> {
        for part in CRATES {
            copy_all(&workspace.join(part), &folder.join(part))?;
        }
        fs::create_dir_all(folder.join("source"))?;
        for name in SOURCES {
            fs::copy(sources.join(name), folder.join("source").join(name))?;
        }
        let manifest = fs::read_to_string(workspace.join("Cargo.toml"))?.replace(", \"comparer\"", "");
        fs::write(folder.join("Cargo.toml"), manifest)?;
        Ok(Copy { folder })
    }

    /// Puts a wrong reading in. The result holds what the files were before.
    pub fn spoil(&self, reading: &WrongReading) -> io::Result<Vec<(PathBuf, String)>> {
        let mut before = Vec::new();
        for edit in &reading.edits {
            let path = self.folder.join(&edit.file);
            let text = fs::read_to_string(&path)?;
            if text.matches(&edit.old).count() != 1 {
                self.restore(before)?;
                return Err(error(format!("{}: the words stand not once in {}", reading.name, edit.file)));
            }
            fs::write(&path, text.replacen(&edit.old, &edit.new, 1))?;
            before.push((path, text));
        }
        Ok(before)
    }

    /// Undoes it, the last edit first.
    pub fn restore(&self, before: Vec<(PathBuf, String)>) -> io::Result<()> {
        before.into_iter().rev().try_for_each(|(path, text)| fs::write(path, text))
    }
}

fn copy_all(from: &Path, to: &Path) -> io::Result<()> {
    fs::create_dir_all(to)?;
    for entry in fs::read_dir(from)? {
        let entry = entry?;
        let target = to.join(entry.file_name());
        if entry.file_type()?.is_dir() {
            copy_all(&entry.path(), &target)?;
        } else {
            fs::copy(entry.path(), target)?;
        }
    }
    Ok(())
}
