//! The table file of `docs/TABLE-FILE.md`, read by a plain program.

use crate::generate::OwnTable;

const MAGIC: &[u8] = b"DVTABLE1";

/// The table that the file holds, if it is whole.
pub fn read(file: &[u8]) -> Option<OwnTable> {
    let rest = file.strip_prefix(MAGIC)?;
    let (words, rest) = number(rest)?;
    let (pool, mut rest) = number(rest)?;
    if rest.len() as u64 != 4 * u64::from(words) + u64::from(pool) {
        return None;
    }
    let mut table = OwnTable {
        words: Vec::new(),
        pool: Vec::new(),
    };
    for _ in 0..words {
        let (word, behind) = number(rest)?;
        table.words.push(word);
        rest = behind;
    }
    table.pool = rest.to_vec();
    Some(table)
}

/// Four bytes, the least first, and what stands behind them.
fn number(bytes: &[u8]) -> Option<(u32, &[u8])> {
    let (number, rest) = bytes.split_first_chunk()?;
    Some((u32::from_le_bytes(*number), rest))
}
