//! Memory for one parameter, lent so that a byte outside it cannot be read or written unseen.

use crate::system::Mapping;
use std::alloc::{alloc, dealloc, handle_alloc_error, Layout};
use std::ops::Range;
use std::ptr::NonNull;

/// Bytes watched beside what is lent, on each side where no page is guarded.
const GUARD: usize = 64;

/// No UTF-8 holds such a byte, so whatever is written is seen; neighbours differ.
const FILL: [u8; 7] = [0xFF, 0xF8, 0xFD, 0xFA, 0xFB, 0xFC, 0xF9];

/// As words and numbers are aligned at most.
const ALIGNMENT: usize = 8;

const FIRST_LENGTH: usize = 4096;

/// Where the bytes stand.
#[derive(Clone, Copy, Debug, Eq, PartialEq)]
pub enum Place {
    /// The last one stands just before a page that no access is allowed to; watched bytes stand before the first.
    BeforePage,
    /// The first one stands just after such a page; watched bytes stand after the last.
    AfterPage,
    /// Watched bytes on both sides.
    Between,
    /// In a block of the heap of just that length: for valgrind, which sees any access outside it.
    Heap,
}

pub struct Slot {
    mapping: Mapping,
    /// What the mapping holds between calls.
    before: Vec<u8>,
    lent: Lent,
    /// Of mappings that became too small.
    others_are_whole: bool,
}

enum Lent {
    Nothing,
    Mapped(Range<usize>),
    Block(NonNull<u8>, Layout),
}

impl Default for Slot {
    fn default() -> Self {
        Self::new(FIRST_LENGTH)
    }
}

impl Slot {
    fn new(length: usize) -> Self {
        let mut mapping = Mapping::between_guards(length);
        let mut before = FILL.repeat(mapping.length() / FILL.len() + 1);
        before.truncate(mapping.length());
        mapping.bytes_mut().copy_from_slice(&before);
        Self {
            mapping,
            before,
            lent: Lent::Nothing,
            others_are_whole: true,
        }
    }

    /// Memory that holds these bytes. In the heap only the first `set` are set.
    pub fn lend(&mut self, bytes: &[u8], set: usize, place: Place) -> *mut u8 {
        if place == Place::Heap {
            return self.lend_block(&bytes[..set], bytes.len());
        }
        if self.mapping.length() < bytes.len() + 2 * GUARD {
            let others_are_whole = self.is_whole();
            *self = Self::new(2 * bytes.len() + 2 * GUARD);
            self.others_are_whole = others_are_whole;
        }
        let start = match place {
            Place::BeforePage => self.mapping.length() - bytes.len(),
            Place::AfterPage => 0,
            _ => GUARD,
        };
        let range = start..start + bytes.len();
        self.mapping.bytes_mut()[range.clone()].copy_from_slice(bytes);
        self.lent = Lent::Mapped(range);
        self.mapping.start().wrapping_add(start)
    }

    fn lend_block(&mut self, bytes: &[u8], length: usize) -> *mut u8 {
        if length == 0 {
            self.lent = Lent::Nothing;
            return NonNull::<u64>::dangling().as_ptr().cast();
        }
        let layout = Layout::from_size_align(length, ALIGNMENT).unwrap();
        // SAFETY: the length is not 0.
        let Some(block) = NonNull::new(unsafe { alloc(layout) }) else {
            handle_alloc_error(layout)
        };
        // SAFETY: the block is new, and no shorter than `bytes`.
        unsafe {
            block
                .as_ptr()
                .copy_from_nonoverlapping(bytes.as_ptr(), bytes.len())
        };
        self.lent = Lent::Block(block, layout);
        block.as_ptr()
    }

    /// Does what is lent hold the bytes of `wanted`, of which in the heap the first `set` are set, and is each watched
    /// byte as it was? The memory is taken back.
    pub fn holds(&mut self, wanted: &[u8], set: usize) -> bool {
        match std::mem::replace(&mut self.lent, Lent::Nothing) {
            Lent::Nothing => true,
            Lent::Mapped(range) => self.mapped_holds(range, wanted),
            Lent::Block(block, layout) => {
                // SAFETY: the block is no shorter, and so many of its bytes are set.
                let bytes = unsafe { std::slice::from_raw_parts(block.as_ptr(), set) };
                let holds = *bytes == wanted[..set];
                // SAFETY: it was allocated with this layout, and is not used any more.
                unsafe { dealloc(block.as_ptr(), layout) };
                holds
            }
        }
    }

    fn mapped_holds(&mut self, range: Range<usize>, wanted: &[u8]) -> bool {
        let bytes = self.mapping.bytes_mut();
        let left = range.start.saturating_sub(GUARD)..range.start;
        let right = range.end..(range.end + GUARD).min(bytes.len());
        let holds = bytes[range.clone()] == *wanted
            && bytes[left.clone()] == self.before[left.clone()]
            && bytes[right.clone()] == self.before[right.clone()];
        let all = left.start..right.end;
        bytes[all.clone()].copy_from_slice(&self.before[all]);
        holds
    }

    /// Is every byte as it was, those far from all that was lent too?
    pub fn is_whole(&self) -> bool {
        self.others_are_whole && self.mapping.bytes() == self.before
    }
}

impl Drop for Slot {
    fn drop(&mut self) {
        self.holds(&[], 0);
    }
}
