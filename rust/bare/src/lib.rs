//! A static library without `std`, with a panic handler and an allocator of its own, for the
//! program `main.c`. All that is `unsafe` is in this file; `adding` builds the module.
#![no_std]

extern crate alloc;

mod adding;

use core::alloc::{GlobalAlloc, Layout};
use core::cell::UnsafeCell;
use core::panic::PanicInfo;
use core::ptr;
use core::sync::atomic::{AtomicUsize, Ordering};

/// The number of bytes that the library can allocate.
const SIZE: usize = 64 << 10;

/// Allocates from one array, in order, and never frees.
struct Heap {
    bytes: UnsafeCell<[u8; SIZE]>,
    used: AtomicUsize,
}

#[global_allocator]
static HEAP: Heap = Heap {
    bytes: UnsafeCell::new([0; SIZE]),
    used: AtomicUsize::new(0),
};

// SAFETY: no two allocations overlap, since `used` only grows, and in one step.
unsafe impl Sync for Heap {}

impl Heap {
    /// Returns the offset in the array of an allocation of this layout, if `used` bytes are in
    /// use.
    fn begin(&self, used: usize, layout: Layout) -> usize {
        let first = self.bytes.get().addr();
        (first + used).next_multiple_of(layout.align()) - first
    }
}

// SAFETY: `alloc` returns null, or an aligned pointer to as many bytes of the array as the layout
// has, which no other allocation has.
unsafe impl GlobalAlloc for Heap {
    unsafe fn alloc(&self, layout: Layout) -> *mut u8 {
        let take = |used| {
            let end = self.begin(used, layout).checked_add(layout.size())?;
            (end <= SIZE).then_some(end)
        };
        match self
            .used
            .fetch_update(Ordering::Relaxed, Ordering::Relaxed, take)
        {
            Ok(used) => self
                .bytes
                .get()
                .cast::<u8>()
                .wrapping_add(self.begin(used, layout)),
            Err(_) => ptr::null_mut(),
        }
    }

    unsafe fn dealloc(&self, _first: *mut u8, _layout: Layout) {}
}

#[panic_handler]
fn stop(_: &PanicInfo) -> ! {
    loop {}
}

/// Writes a module that adds two numbers, and returns its size in bytes. Writes nothing if the
/// module has more than `out_len` bytes.
///
/// # Safety
///
/// `out` is valid for `out_len` bytes, which nobody else reads or writes.
#[unsafe(no_mangle)]
pub unsafe extern "C" fn bare_adding(out: *mut u8, out_len: usize) -> usize {
    let module = adding::module();
    if module.len() <= out_len {
        // SAFETY: the caller passes this many bytes, and they are not those of `module`.
        unsafe { ptr::copy_nonoverlapping(module.as_ptr(), out, module.len()) };
    }
    module.len()
}
