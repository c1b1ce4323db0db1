//! Blocks one after the other, each after its length.

use std::io::{self, Read, Write};

/// The next block of a stream, or none at its end.
pub fn next_block(input: &mut impl Read) -> io::Result<Option<Vec<u8>>> {
    let mut length = [0; 4];
    match input.read(&mut length)? {
        0 => return Ok(None),
        some => input.read_exact(&mut length[some..])?,
    }
    let mut block = vec![0; u32::from_le_bytes(length) as usize];
    input.read_exact(&mut block)?;
    Ok(Some(block))
}

/// Writes a block after its length.
pub fn write_block(block: &[u8], output: &mut impl Write) -> io::Result<()> {
    output.write_all(&(block.len() as u32).to_le_bytes())?;
    output.write_all(block)
}
