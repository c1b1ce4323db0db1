//! Trees in words and as blocks.
//!
//! - `trees assemble < WORDS > STREAM`: a tree in words on each line becomes a block. Lines that are empty or begin
//!   with `#` are passed over.
//! - `trees print < STREAM`: a line of words for each block; for a refused one its refusal.
//! - `trees make COUNT SEED > STREAM`: blocks as the comparison makes them.
//! - `trees restate < STREAM > STREAM`: each block as the one on which the reference follows the rules.

use blocks::{Tree, check, next_block, write_block};
use comparer::compare::make;
use comparer::differences::restated;
use comparer::generate::Generator;
use comparer::random::Random;
use std::error::Error;
use std::io::{BufReader, BufWriter, Write, stdin, stdout};

fn main() -> Result<(), Box<dyn Error>> {
    let arguments: Vec<String> = std::env::args().skip(1).collect();
    let arguments: Vec<&str> = arguments.iter().map(String::as_str).collect();
    let mut output = BufWriter::new(stdout().lock());
    match arguments[..] {
        ["assemble"] => assemble(&mut output)?,
        ["print"] => print(&mut output)?,
        ["make", count, seed] => make_blocks(count.parse()?, seed.parse()?, &mut output)?,
        ["restate"] => restate(&mut output)?,
        _ => return Err("usage: trees assemble | print | make COUNT SEED | restate".into()),
    }
    Ok(output.flush()?)
}

fn assemble(output: &mut impl Write) -> Result<(), Box<dyn Error>> {
    for line in stdin().lines() {
        let line = line?;
        if !line.is_empty() && !line.starts_with('#') {
            write_block(&blocks::parse(&line)?.block(), output)?;
        }
    }
    Ok(())
}

fn print(output: &mut impl Write) -> Result<(), Box<dyn Error>> {
    let mut input = BufReader::new(stdin().lock());
    while let Some(block) = next_block(&mut input)? {
        match check(&block) {
            Ok(rows) => writeln!(output, "{}", Tree::of_rows(rows))?,
            Err(fault) => writeln!(output, "refusal {} at row {}", fault.number, fault.place)?,
        }
    }
    Ok(())
}

fn make_blocks(count: usize, seed: u64, output: &mut impl Write) -> Result<(), Box<dyn Error>> {
    let (mut generator, mut random) = (Generator::new(seed), Random::new(!seed));
    for _ in 0..count {
        write_block(&make(&mut generator, &mut random), output)?;
    }
    Ok(())
}

fn restate(output: &mut impl Write) -> Result<(), Box<dyn Error>> {
    let mut input = BufReader::new(stdin().lock());
    while let Some(block) = next_block(&mut input)? {
        match check(&block) {
            Ok(rows) => write_block(&restated(&Tree::of_rows(rows)).0.block(), output)?,
            Err(_) => write_block(&block, output)?,
        }
    }
    Ok(())
}
