//! Reads a stream of tree blocks, each after its length in four bytes, and prints the line of each.

use std::io::{self, BufReader, BufWriter, Write};

fn main() -> io::Result<()> {
    if !std::env::args().skip(1).eq(["answers"]) {
        return Err(io::Error::other("usage: reference answers < STREAM"));
    }
    let mut input = BufReader::new(io::stdin().lock());
    let mut output = BufWriter::new(io::stdout().lock());
    while let Some(block) = blocks::next_block(&mut input)? {
        writeln!(output, "{}", reference::answers_line(&block))?;
    }
    output.flush()
}
