//! The environment of a test program on wasm32 without `std`: an allocator, a panic handler, the
//! names of `std` that the tests use, and the imports and exports that `run.mjs` needs.
//! `tools/wasm32` declares this module in the root of each test program.
use alloc_crate::alloc::{GlobalAlloc, Layout};
use core::arch::wasm32::{memory_grow, memory_size, unreachable};
use core::ffi::c_void;
use core::fmt::Debug;
use core::panic::PanicInfo;
use core::ptr;
use core::sync::atomic::{AtomicUsize, Ordering};

/// The types and traits that a program with `std` has without a `use`, and a function of tests. The
/// macros are in the root.
pub mod prelude {
    pub use super::caught;
    pub use alloc_crate::borrow::ToOwned;
    pub use alloc_crate::boxed::Box;
    pub use alloc_crate::string::{String, ToString};
    pub use alloc_crate::vec::Vec;
}

/// The modules and macros of `std` that the tests name.
pub mod std {
    pub use alloc_crate::{borrow, boxed, fmt, format, rc, string, vec};
    pub use core::{
        assert, assert_eq, cell, cmp, convert, error, hash, iter, mem, ops, panic, slice,
    };
}

/// The end of a test: those that return a `Result` fail with its error.
pub trait Outcome {
    fn check(self);
}

impl Outcome for () {
    fn check(self) {}
}

impl<E: Debug> Outcome for Result<(), E> {
    fn check(self) {
        self.unwrap();
    }
}

/// Allocates in order from pages that the linker does not use. It begins anew when every allocation
/// has been freed, as a test of many rounds does after each.
struct Heap {
    /// The address of the first allocation; 0 before it.
    begin: AtomicUsize,
    /// The address behind the last allocation, and the highest one so far.
    end: AtomicUsize,
    highest: AtomicUsize,
    /// The number of allocations that have not been freed.
    live: AtomicUsize,
}

#[global_allocator]
static HEAP: Heap = Heap {
    begin: AtomicUsize::new(0),
    end: AtomicUsize::new(0),
    highest: AtomicUsize::new(0),
    live: AtomicUsize::new(0),
};

const PAGE: usize = 1 << 16;

// SAFETY: `alloc` returns null, or an aligned pointer to bytes behind all allocations that have not
// been freed, in pages that the linker does not use. There is one thread.
unsafe impl GlobalAlloc for Heap {
    unsafe fn alloc(&self, layout: Layout) -> *mut u8 {
        let pages = memory_size(0);
        if self.begin.load(Ordering::Relaxed) == 0 {
            let begin = pages.saturating_mul(PAGE);
            self.begin.store(begin, Ordering::Relaxed);
            self.end.store(begin, Ordering::Relaxed);
        }
        let first = self
            .end
            .load(Ordering::Relaxed)
            .checked_next_multiple_of(layout.align())
            .and_then(|first| Some((first, first.checked_add(layout.size())?)));
        let Some((first, end)) = first else {
            return ptr::null_mut();
        };
        let more = end.div_ceil(PAGE).saturating_sub(pages);
        if more > 0 && memory_grow(0, more) == usize::MAX {
            return ptr::null_mut();
        }
        self.end.store(end, Ordering::Relaxed);
        self.highest.fetch_max(end, Ordering::Relaxed);
        self.live.fetch_add(1, Ordering::Relaxed);
        ptr::with_exposed_provenance_mut(first)
    }

    /// Pages hold zeros until they are used.
    unsafe fn alloc_zeroed(&self, layout: Layout) -> *mut u8 {
        let used = self.highest.load(Ordering::Relaxed);
        // SAFETY: the caller keeps to what `alloc` asks.
        let first = unsafe { self.alloc(layout) };
        if !first.is_null() {
            let used = used.saturating_sub(first.addr()).min(layout.size());
            // SAFETY: these bytes are a part of the allocation.
            unsafe { first.write_bytes(0, used) }
        }
        first
    }

    unsafe fn dealloc(&self, _first: *mut u8, _layout: Layout) {
        if self.live.fetch_sub(1, Ordering::Relaxed) == 1 {
            let begin = self.begin.load(Ordering::Relaxed);
            self.end.store(begin, Ordering::Relaxed);
        }
    }
}

/// A string of zeros, in new pages that nothing reads: checking its bytes would take a second.
pub fn zeros(len: usize) -> prelude::String {
    // SAFETY: zeros are UTF-8.
    unsafe { prelude::String::from_utf8_unchecked(vec![0; len]) }
}

#[link(wasm_import_module = "host")]
unsafe extern "C" {
    /// Takes the name of a test, or the message of a panic.
    fn tell(first: *const u8, len: usize);

    /// Makes a call by `resume`, and returns whether it trapped after a message that has this text.
    fn panics(call: *mut c_void, first: *const u8, len: usize) -> bool;
}

fn say(text: &str) {
    // SAFETY: the host reads the text, and keeps no pointer.
    unsafe { tell(text.as_ptr(), text.len()) }
}

/// Returns whether a call panics with a message that contains this string. The stack is not
/// unwound: values are not dropped. A trap leaves the stack pointer as it is, and the end of this
/// function restores it: inline, a loop of calls would run out of stack.
#[inline(never)]
pub fn panics_with(text: &str, call: impl FnOnce()) -> bool {
    let mut call = Some(call);
    let mut once = || call.take().into_iter().for_each(|call| call());
    let mut once: &mut dyn FnMut() = &mut once;
    // SAFETY: the host reads the text, makes the call before it returns, and keeps no pointer.
    unsafe { panics((&raw mut once).cast(), text.as_ptr(), text.len()) }
}

/// Returns the value of a call, or none if it panics.
pub fn caught<R>(call: impl FnOnce() -> R) -> Option<R> {
    let mut value = None;
    panics_with("", || value = Some(call()));
    value
}

/// Makes a call for the host, which catches a trap.
#[unsafe(no_mangle)]
unsafe extern "C" fn resume(call: *mut c_void) {
    // SAFETY: the host has the pointer of `panics_with`, which waits.
    unsafe { (*call.cast::<&mut dyn FnMut()>())() }
}

#[panic_handler]
fn stop(panic: &PanicInfo) -> ! {
    say(&format!("{panic}"));
    unreachable()
}

/// The number of tests.
#[unsafe(no_mangle)]
extern "C" fn count() -> usize {
    crate::TESTS.len()
}

/// Tells the name of a test.
#[unsafe(no_mangle)]
extern "C" fn name(test: usize) {
    say(crate::TESTS[test].0);
}

/// Runs a test, which traps where it fails.
#[unsafe(no_mangle)]
extern "C" fn run(test: usize) {
    crate::TESTS[test].1();
}
