//! Blocks that are mostly no longer lawful.

use crate::random::Random;

/// The block with one to three changes.
pub fn damaged(random: &mut Random, mut block: Vec<u8>) -> Vec<u8> {
    for _ in 0..*random.pick(&[1, 1, 1, 2, 3]) {
        damage(random, &mut block);
    }
    block
}

fn number(block: &[u8], at: usize) -> u32 {
    block.get(at..at + 4).map_or(0, |bytes| u32::from_le_bytes(bytes.try_into().expect("four bytes")))
}

fn put(block: &mut [u8], at: usize, number: u32) {
    if let Some(bytes) = block.get_mut(at..at + 4) {
        bytes.copy_from_slice(&number.to_le_bytes());
    }
}

fn damage(random: &mut Random, block: &mut Vec<u8>) {
    match random.below(12) {
        0 => block.truncate(random.below(block.len() + 1)),
        1 => block.extend(vec![0x61; random.between(1, 20)]),
        2 if !block.is_empty() => {
            let at = random.below(block.len());
            block[at] ^= random.between(1, 255) as u8;
        }
        3 | 4 => damage_header(random, block),
        5 | 6 => damage_text(random, block),
        _ => damage_row(random, block),
    }
}

fn near(random: &mut Random, number: u32) -> u32 {
    let changes = [1, u32::MAX, 20, 20u32.wrapping_neg(), 256, 0x8000_0000];
    match random.below(4) {
        0 => random.below(60) as u32,
        1 => u32::MAX - random.below(40) as u32,
        _ => number.wrapping_add(*random.pick(&changes)),
    }
}

fn damage_header(random: &mut Random, block: &mut [u8]) {
    let at = 4 * random.below(4);
    let changed = near(random, number(block, at));
    put(block, at, changed);
}

fn damage_text(random: &mut Random, block: &mut [u8]) {
    let bytes = b"\x00\x61\x7F\x80\x8F\x90\x9F\xA0\xAF\xB0\xBF\xC0\xC2\xDF\xE0\xED\xED\xED\xEF\xF0\xF4\xF5\xFF";
    let from = number(block, 8) as usize;
    if from < block.len() {
        let at = from + random.below(block.len() - from);
        block[at] = *random.pick(bytes);
    }
}

fn damage_row(random: &mut Random, block: &mut [u8]) {
    let rows = number(block, 4) as usize / 20;
    if rows == 0 {
        return;
    }
    let row = random.below(rows);
    let at = number(block, 0) as usize + 20 * row;
    let field = at + 4 * *random.pick(&[0, 0, 0, 1, 2, 3, 4, 4, 4]);
    let changed = match random.below(4) {
        0 => random.below(52) as u32,
        1 => random.between(row, rows) as u32,
        2 => number(block, 16 + 20 * random.below(rows)),
        _ => near(random, number(block, field)),
    };
    put(block, field, changed);
}
