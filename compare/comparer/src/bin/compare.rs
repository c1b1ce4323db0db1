//! Compares a program with the reference.
//!
//! `compare REFERENCE PORT COUNT SEED`: the paths of two programs with the command `answers`, how many blocks are made,
//! and from which number. Ends with status 1 where they disagree.

use comparer::compare::{Blocks, Pair, Plan};
use comparer::sides::Side;
use std::error::Error;
use std::process::ExitCode;

const MOST_SHOWN: usize = 10;

fn main() -> Result<ExitCode, Box<dyn Error>> {
    let arguments: Vec<String> = std::env::args().skip(1).collect();
    let [reference, port, count, seed] = &arguments[..] else {
        return Err("usage: compare REFERENCE PORT COUNT SEED".into());
    };
    let pair = Pair { reference: Side::new(reference), port: Side::new(port) };
    let blocks = Blocks::Made { count: count.parse()?, seed: seed.parse()? };
    let plan = Plan { blocks, most_shown: MOST_SHOWN };
    let outcome = pair.run(&plan)?;
    println!("{outcome}");
    Ok(ExitCode::from(u8::from(!outcome.disagreements.is_empty())))
}
