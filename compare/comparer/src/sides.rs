//! The two programs that are compared.

use std::io::{self, BufWriter, Read, Write};
use std::path::{Path, PathBuf};
use std::process::{Command, Stdio};
use std::thread;

/// A program with the command `answers`: for a stream of blocks a line each.
#[derive(Clone)]
pub struct Side {
    program: PathBuf,
}

impl Side {
    pub fn new(program: impl AsRef<Path>) -> Side {
        Side { program: program.as_ref().to_path_buf() }
    }

    /// A line for each block. Blocks without one are asked about alone, for a program that fails may lose lines; those
    /// that then have none get `no line`.
    pub fn answers(&self, blocks: &[Vec<u8>]) -> io::Result<Vec<String>> {
        let mut lines = self.lines(blocks)?;
        lines.truncate(blocks.len());
        for block in &blocks[lines.len()..] {
            let line = self.lines(std::slice::from_ref(block))?.into_iter().next();
            lines.push(line.unwrap_or_else(|| "no line".to_string()));
        }
        Ok(lines)
    }

    fn lines(&self, blocks: &[Vec<u8>]) -> io::Result<Vec<String>> {
        let mut child = Command::new(&self.program)
            .arg("answers")
            .stdin(Stdio::piped())
            .stdout(Stdio::piped())
            .spawn()
            .map_err(|error| io::Error::other(format!("{}: {error}", self.program.display())))?;
        let input = child.stdin.take().expect("it is piped");
        let mut output = child.stdout.take().expect("it is piped");
        let mut said = Vec::new();
        thread::scope(|scope| {
            // A program that ends early closes its input; its missing lines tell of it.
            scope.spawn(|| write_all(blocks, input).ok());
            output.read_to_end(&mut said)
        })?;
        child.wait()?;
        Ok(String::from_utf8_lossy(&said).lines().map(str::to_string).collect())
    }
}

fn write_all(blocks: &[Vec<u8>], input: impl Write) -> io::Result<()> {
    let mut input = BufWriter::new(input);
    for block in blocks {
        blocks::write_block(block, &mut input)?;
    }
    input.flush()
}
