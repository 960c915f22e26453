//! An output to lend, between bytes that no call may change.

/// Bytes watched on each side of the output.
const GUARD: usize = 64;

/// No UTF-8 holds such a byte, so whatever is written is seen; neighbours differ.
const FILL: [u8; 7] = [0xFF, 0xF8, 0xFD, 0xFA, 0xFB, 0xFC, 0xF9];

/// The output starts at a fixed place; whatever is not lent is watched.
#[derive(Default)]
pub struct Lent {
    bytes: Vec<u8>,
    /// What `bytes` holds before a call.
    before: Vec<u8>,
}

impl Lent {
    fn grow(&mut self, length: usize) {
        let whole = GUARD + length + GUARD;
        let old = self.bytes.len();
        if old < whole {
            let whole = whole.max(2 * old);
            self.before = FILL.repeat(whole / FILL.len() + 1);
            self.bytes.extend_from_slice(&self.before[old..]);
        }
    }

    /// An output of this length.
    pub fn lend(&mut self, length: usize) -> &mut [u8] {
        self.grow(length);
        &mut self.bytes[GUARD..GUARD + length]
    }

    /// Does the output of this length start with `text`, and is every other byte as it was? Then all are again as they
    /// were.
    pub fn holds(&mut self, length: usize, text: &[u8]) -> bool {
        let end = GUARD + length + GUARD;
        let after = GUARD + text.len();
        let holds = self.bytes[..GUARD] == self.before[..GUARD]
            && self.bytes[GUARD..after] == *text
            && self.bytes[after..end] == self.before[after..end];
        let changed = if holds { GUARD..after } else { 0..end };
        self.bytes[changed.clone()].copy_from_slice(&self.before[changed]);
        holds
    }

    /// Is every byte as it was, those far from any output too?
    pub fn is_whole(&self) -> bool {
        self.bytes == self.before
    }
}
