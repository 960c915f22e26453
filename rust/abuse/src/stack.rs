//! The stack that calls use: each entry is called on memory of its own, painted before, and what is no longer as it was
//! painted was used.

use crate::entries::Entry;
use crate::system::Mapping;
use std::arch::asm;

/// Far more than any entry may use.
const LENGTH: usize = 1 << 20;

/// What the run allows an entry, the frames that call it counted with it. `docs/ABUSE.md` states these.
pub fn limit(entry: Entry) -> usize {
    match entry {
        Entry::PrintLiteral | Entry::ReadLiteral => 4 << 10,
        Entry::CheckTable | Entry::CheckDocument => 80 << 10,
        Entry::PrintDocument => 144 << 10,
    }
}

/// One stack for each entry.
pub struct Stack(Vec<Mapping>);

impl Default for Stack {
    fn default() -> Self {
        Self(Entry::ALL.map(|_| painted()).into())
    }
}

/// At this address, a word that nothing else writes.
fn paint(address: usize) -> u64 {
    (address as u64 ^ 0x5AA5_C33C_9669_F00F).wrapping_mul(0x9E37_79B9_7F4A_7C15)
}

fn painted() -> Mapping {
    let mut mapping = Mapping::between_guards(LENGTH);
    let start = mapping.start() as usize;
    for (at, word) in mapping.bytes_mut().chunks_exact_mut(8).enumerate() {
        word.copy_from_slice(&paint(start + 8 * at).to_ne_bytes());
    }
    mapping
}

impl Stack {
    /// Makes the call on the entry's stack.
    pub fn run(&mut self, entry: Entry, call: impl FnOnce() -> u32) -> u32 {
        let mapping = &mut self.0[entry as usize];
        let top = mapping.start().wrapping_add(mapping.length());
        let mut work = Work {
            call: Some(call),
            number: 0,
        };
        // SAFETY: the stack is aligned and long enough, a page that no access is allowed to stands below it, and the
        // registers that a call may change are given as such. `work` outlives the call, which does not unwind.
        unsafe { call_on(top, (&raw mut work).cast(), work_out(&work)) };
        work.number
    }

    /// The bytes of the entry's stack that were written to since it was made, all above the lowest one.
    pub fn used(&self, entry: Entry) -> usize {
        let mapping = &self.0[entry as usize];
        let start = mapping.start() as usize;
        let mut words = mapping.bytes().chunks_exact(8).enumerate();
        let lowest = words.find(|(at, word)| **word != paint(start + 8 * at).to_ne_bytes());
        lowest.map_or(0, |(at, _)| mapping.length() - 8 * at)
    }
}

struct Work<F> {
    call: Option<F>,
    number: u32,
}

type Function = unsafe extern "C" fn(*mut u8);

/// The function that does such work.
fn work_out<F: FnOnce() -> u32>(_: &Work<F>) -> Function {
    do_work::<F>
}

unsafe extern "C" fn do_work<F: FnOnce() -> u32>(work: *mut u8) {
    let work = unsafe { &mut *work.cast::<Work<F>>() };
    if let Some(call) = work.call.take() {
        work.number = call();
    }
}

unsafe fn call_on(top: *mut u8, work: *mut u8, function: Function) {
    unsafe {
        asm!(
            "mov r12, rsp",
            "mov rsp, {top}",
            "call {function}",
            "mov rsp, r12",
            top = in(reg) top,
            function = in(reg) function,
            in("rdi") work,
            out("r12") _,
            clobber_abi("C"),
        );
    }
}
