//! Two accesses of one byte past a block of the heap. They show that what watches a run sees such a thing; without it
//! they pass unseen.

use dervisclo::c;
use std::hint::black_box;
use std::ptr;

const LENGTH: usize = 13;

fn block() -> Box<[u8]> {
    black_box(vec![b'a'; LENGTH].into_boxed_slice())
}

/// By the host's own code: for a sanitizer.
pub fn by_host() {
    let block = block();
    // SAFETY: there is none; this reads past the block.
    black_box(unsafe { block.as_ptr().add(LENGTH).read_volatile() });
}

/// By the library, which is told that the block is longer than it is: for valgrind.
pub fn by_library() {
    let block = block();
    let mut length = 0;
    // SAFETY: there is none; the library reads past the block.
    let number = unsafe {
        c::dervisclo_print_literal(
            block.as_ptr(),
            LENGTH + 1,
            0,
            0,
            ptr::null(),
            0,
            0,
            ptr::null_mut(),
            0,
            &mut length,
        )
    };
    black_box((number, length));
}
