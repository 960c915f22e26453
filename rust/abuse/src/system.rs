//! The few calls of Linux that the runs need.

use std::ffi::{c_int, c_long, c_void};
use std::panic::{catch_unwind, AssertUnwindSafe};
use std::ptr;

unsafe extern "C" {
    fn mmap(
        address: *mut c_void,
        length: usize,
        protection: c_int,
        flags: c_int,
        file: c_int,
        offset: c_long,
    ) -> *mut c_void;
    fn munmap(address: *mut c_void, length: usize) -> c_int;
    fn mprotect(address: *mut c_void, length: usize, protection: c_int) -> c_int;
    fn fork() -> c_int;
    fn waitpid(process: c_int, status: *mut c_int, options: c_int) -> c_int;
    fn close(file: c_int) -> c_int;
    fn _exit(status: c_int) -> !;
}

pub const PAGE: usize = 4096;

const NO_ACCESS: c_int = 0;
const READ_AND_WRITE: c_int = 1 | 2;
const SHARED: c_int = 1;
const PRIVATE: c_int = 2;
const ANONYMOUS: c_int = 0x20;

/// Bytes of whole pages. They begin as 0.
pub struct Mapping {
    start: *mut u8,
    length: usize,
    /// Bytes on each side that no access is allowed to.
    guard: usize,
}

impl Mapping {
    /// At least so many bytes, between two pages that no access is allowed to.
    pub fn between_guards(length: usize) -> Self {
        let length = length.next_multiple_of(PAGE).max(PAGE);
        let whole = map(length + 2 * PAGE, NO_ACCESS, PRIVATE);
        let start = whole.wrapping_add(PAGE);
        // SAFETY: the pages were just mapped, and nothing else knows of them.
        let status = unsafe { mprotect(start.cast(), length, READ_AND_WRITE) };
        assert_eq!(status, 0, "mprotect");
        Self {
            start,
            length,
            guard: PAGE,
        }
    }

    /// At least so many bytes that children made later share.
    pub fn shared(length: usize) -> Self {
        let length = length.next_multiple_of(PAGE);
        Self {
            start: map(length, READ_AND_WRITE, SHARED),
            length,
            guard: 0,
        }
    }

    pub fn start(&self) -> *mut u8 {
        self.start
    }

    pub fn length(&self) -> usize {
        self.length
    }

    pub fn bytes(&self) -> &[u8] {
        // SAFETY: so many bytes are mapped there as long as `self` lives.
        unsafe { std::slice::from_raw_parts(self.start, self.length) }
    }

    pub fn bytes_mut(&mut self) -> &mut [u8] {
        // SAFETY: as above, and they are borrowed with `self`.
        unsafe { std::slice::from_raw_parts_mut(self.start, self.length) }
    }
}

fn map(length: usize, protection: c_int, flags: c_int) -> *mut u8 {
    // SAFETY: new pages, wherever the system puts them.
    let start = unsafe {
        mmap(
            ptr::null_mut(),
            length,
            protection,
            flags | ANONYMOUS,
            -1,
            0,
        )
    };
    assert!(start as isize != -1, "mmap of {length} bytes");
    start.cast()
}

impl Drop for Mapping {
    fn drop(&mut self) {
        let whole = self.start.wrapping_sub(self.guard);
        // SAFETY: these pages were mapped by `self`, and no borrow of them is left.
        unsafe { munmap(whole.cast(), self.length + 2 * self.guard) };
    }
}

/// How a child ended.
#[derive(Clone, Copy, Debug, Eq, PartialEq)]
pub enum Ended {
    Status(i32),
    Signal(i32),
}

/// A process that began as a copy of this one.
pub struct Child(c_int);

/// The status of a child that panicked.
const PANICKED: c_int = 101;

impl Child {
    /// Does the work in a child, which ends with the status that the work gives.
    pub fn start(work: impl FnOnce() -> u8) -> Self {
        // SAFETY: the child does its work and ends; it does not come back.
        match unsafe { fork() } {
            -1 => panic!("fork"),
            0 => {
                let status = catch_unwind(AssertUnwindSafe(work)).map_or(PANICKED, c_int::from);
                // SAFETY: nothing of the parent's is to be tidied up here.
                unsafe { _exit(status) }
            }
            process => Self(process),
        }
    }

    pub fn wait(self) -> Ended {
        let mut status = 0;
        // SAFETY: `status` is a number that may be written.
        let process = unsafe { waitpid(self.0, &mut status, 0) };
        assert_eq!(process, self.0, "waitpid");
        match status & 0x7f {
            0 => Ended::Status(status >> 8 & 0xff),
            signal => Ended::Signal(signal),
        }
    }
}

/// Closes the standard error, so that a child that is made to crash does so in silence.
pub fn be_silent() {
    // SAFETY: what is written there is lost and nothing else.
    unsafe { close(2) };
}
