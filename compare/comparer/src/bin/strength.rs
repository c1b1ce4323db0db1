//! How strong the comparison is: puts each wrong reading of `wrong-readings.txt` into a copy of the reference and looks
//! after how many blocks it is told apart from a program that answers by the rules.
//!
//! `strength PORT COUNT SEED [WORDS]`: the path of the program, the most blocks for each reading, the number from which
//! they are made, and words that a reading's name must hold to be tried. DENO_AST_SRC names the folder of the
//! reference's sources.
//!
//! `strength PORT --on STREAM`: the same on the blocks of a file.
//!
//! What it prints is a list of trees in words, each after a line that tells of its reading. It ends with status 1 where a
//! reading is not told apart and is not said to be equivalent, is told apart although it is, or cannot be built.

use comparer::compare::{Blocks, Pair, Plan};
use comparer::sides::Side;
use comparer::wrong::{Copy, WrongReading, parse};
use std::error::Error;
use std::fs::File;
use std::io::BufReader;
use std::path::{Path, PathBuf};
use std::process::{Command, ExitCode};
use std::{env, fs};

type Failure = Box<dyn Error>;

fn main() -> Result<ExitCode, Failure> {
    let arguments: Vec<String> = env::args().skip(1).collect();
    let arguments: Vec<&str> = arguments.iter().map(String::as_str).collect();
    let (port, blocks, words) = match arguments[..] {
        [port, "--on", stream] => (port, Blocks::Given(all_blocks(stream)?), ""),
        [port, count, seed] => (port, Blocks::Made { count: count.parse()?, seed: seed.parse()? }, ""),
        [port, count, seed, words] => (port, Blocks::Made { count: count.parse()?, seed: seed.parse()? }, words),
        _ => return Err("usage: strength PORT COUNT SEED [WORDS] | PORT --on STREAM".into()),
    };
    let plan = Plan { blocks, most_shown: 1 };
    let workspace = Path::new(env!("CARGO_MANIFEST_DIR")).parent().expect("the workspace");
    let sources = env::var_os("DENO_AST_SRC").map(PathBuf::from).ok_or("set DENO_AST_SRC")?;
    let readings = parse(&fs::read_to_string(workspace.join("wrong-readings.txt"))?)?;
    let copy = Copy::new(workspace, &sources, workspace.join("target/strength"))?;
    let (mut told, mut equivalent, mut missed) = (0, 0, 0);
    for reading in readings.iter().filter(|reading| reading.name.contains(words)) {
        match (tried(&copy, reading, Side::new(port), &plan), &reading.equivalent) {
            (Ok(true), None) => told += 1,
            (Ok(false), Some(_)) => equivalent += 1,
            (Ok(_), _) => missed += 1,
            (Err(error), _) => {
                println!("# {error}");
                missed += 1;
            }
        }
    }
    println!("# {told} told apart, {equivalent} equivalent, {missed} not as they should be");
    Ok(ExitCode::from(u8::from(missed > 0)))
}

fn all_blocks(stream: &str) -> Result<Vec<Vec<u8>>, Failure> {
    let (mut input, mut all) = (BufReader::new(File::open(stream)?), Vec::new());
    while let Some(block) = blocks::next_block(&mut input)? {
        all.push(block);
    }
    Ok(all)
}

/// Whether a wrong reading is told apart. Prints how.
fn tried(copy: &Copy, reading: &WrongReading, port: Side, plan: &Plan) -> Result<bool, Failure> {
    let before = copy.spoil(reading)?;
    let built = build(copy);
    copy.restore(before)?;
    built.map_err(|error| format!("{}: {error}", reading.name))?;
    let pair = Pair { reference: Side::new(copy.folder.join("target/debug/reference")), port };
    let outcome = pair.run(plan)?;
    let name = &reading.name;
    match (outcome.disagreements.first(), &reading.equivalent) {
        (Some(told), _) => println!("# {name}: told apart after {} blocks\n{}", told.number + 1, told.input),
        (None, Some(why)) => println!("# {name}: equivalent, {why}"),
        (None, None) => println!("# {name}: not told apart in {} blocks", outcome.compared),
    }
    Ok(!outcome.disagreements.is_empty())
}

fn build(copy: &Copy) -> Result<(), Failure> {
    let built = Command::new(env!("CARGO"))
        .args(["build", "--quiet", "--offline", "-p", "reference"])
        .current_dir(&copy.folder)
        .env("DENO_AST_SRC", copy.folder.join("source"))
        .env("CARGO_TARGET_DIR", copy.folder.join("target"))
        .env("RUSTFLAGS", "-Awarnings")
        .output()?;
    if built.status.success() {
        return Ok(());
    }
    Err(String::from_utf8_lossy(&built.stderr).into_owned().into())
}
