//! What JavaScript calls, and the allocator. All that is `unsafe` is in this file.
//!
//! A call takes the address and the size of bytes that `dz_alloc` returned, and returns the address
//! of a block, or 0 where memory is refused. The caller frees both by `dz_free`.
use crate::answers::{self, Answer};
use crate::failure::Failure;
use crate::heap::{ALIGNMENT, Heap, Memory};
use core::alloc::{GlobalAlloc, Layout};
use core::arch::wasm32::{memory_grow, memory_size, unreachable};
use core::cell::UnsafeCell;
use core::mem::ManuallyDrop;
use core::panic::PanicInfo;
use core::{ptr, slice};
use dolzhytik::fallible::{AllocError, Vec};

const PAGE: u32 = 1 << 16;

/// The memory grows by at least this part of it, if it can.
const PART: usize = 4;

/// The memory of the module.
struct Pages;

fn word(address: u32) -> *mut u32 {
    ptr::with_exposed_provenance_mut(address as usize)
}

impl Memory for Pages {
    fn load(&self, address: u32) -> u32 {
        // SAFETY: the heap asks for words of its own pages alone.
        unsafe { word(address).read() }
    }

    fn store(&mut self, address: u32, value: u32) {
        // SAFETY: as above.
        unsafe { word(address).write(value) }
    }

    fn grow(&mut self, bytes: u32) -> Option<(u32, u32)> {
        let first = grown(bytes.div_ceil(PAGE) as usize)?;
        let first = u32::try_from(first).ok()?.checked_mul(PAGE)?;
        // None where the memory has 4 GiB: the end has no address of 32 bits.
        let end = u32::try_from(memory_size(0)).ok()?.checked_mul(PAGE)?;
        Some((first, end))
    }
}

/// Adds at least this many pages, and returns how many there were.
fn grown(needed: usize) -> Option<usize> {
    let mut pages = needed.max(memory_size(0) / PART);
    loop {
        match memory_grow(0, pages) {
            usize::MAX if pages == needed => return None,
            usize::MAX => pages = needed.max(pages / 2),
            before => return Some(before),
        }
    }
}

/// The heap of the module.
struct Allocator {
    heap: UnsafeCell<Heap<Pages>>,
}

// SAFETY: there is one thread.
unsafe impl Sync for Allocator {}

#[global_allocator]
static ALLOCATOR: Allocator = Allocator {
    heap: UnsafeCell::new(Heap::new(Pages)),
};

impl Allocator {
    fn with<T>(&self, call: impl FnOnce(&mut Heap<Pages>) -> T) -> T {
        // SAFETY: there is one thread, and no call of the heap calls the allocator.
        call(unsafe { &mut *self.heap.get() })
    }
}

// SAFETY: `alloc` returns null, or the address of bytes of the heap that nothing else has. It is a
// multiple of `ALIGNMENT`, and what is aligned to more is refused.
unsafe impl GlobalAlloc for Allocator {
    unsafe fn alloc(&self, layout: Layout) -> *mut u8 {
        if layout.align() > ALIGNMENT as usize {
            return ptr::null_mut();
        }
        match self.with(|heap| heap.take(layout.size() as u32)) {
            Some(address) => word(address).cast(),
            None => ptr::null_mut(),
        }
    }

    unsafe fn dealloc(&self, first: *mut u8, _layout: Layout) {
        self.with(|heap| heap.give(first.expose_provenance() as u32));
    }

    unsafe fn realloc(&self, first: *mut u8, layout: Layout, size: usize) -> *mut u8 {
        if self.with(|heap| heap.resize(first.expose_provenance() as u32, size as u32)) {
            return first;
        }
        // SAFETY: the size is not 0, and both have as many bytes as the smaller.
        unsafe {
            let moved = self.alloc(Layout::from_size_align_unchecked(size, layout.align()));
            if !moved.is_null() {
                ptr::copy_nonoverlapping(first, moved, layout.size().min(size));
                self.dealloc(first, layout);
            }
            moved
        }
    }
}

#[panic_handler]
fn stop(_: &PanicInfo) -> ! {
    unreachable()
}

/// Returns the address of this many bytes, or 0.
#[unsafe(no_mangle)]
extern "C" fn dz_alloc(len: u32) -> u32 {
    ALLOCATOR.with(|heap| heap.take(len).unwrap_or(0))
}

/// Frees what `dz_alloc` or another call returned.
///
/// # Safety
///
/// Nobody uses the bytes again.
#[unsafe(no_mangle)]
unsafe extern "C" fn dz_free(address: u32) {
    ALLOCATOR.with(|heap| heap.give(address));
}

/// The bytes that JavaScript passes.
///
/// # Safety
///
/// The address is that of this many bytes, which nobody writes as long as they are used.
unsafe fn bytes<'a>(address: u32, len: u32) -> &'a [u8] {
    // SAFETY: as the caller says.
    unsafe { slice::from_raw_parts(word(address).cast(), len as usize) }
}

/// The block of an error. The example of the page has no texts of errors.
fn block_of(failure: Failure<'_>) -> Result<Vec<u8>, AllocError> {
    if cfg!(feature = "example") {
        return Err(AllocError);
    }
    failure.block()
}

/// The address of a block, or 0.
fn leak(answer: Answer<'_>) -> u32 {
    let block = match answer {
        Ok(block) => Ok(block),
        Err(failure) => block_of(failure),
    };
    match block {
        Ok(block) => ManuallyDrop::new(block.into_std())
            .as_ptr()
            .expose_provenance() as u32,
        Err(_) => 0,
    }
}

/// Declares the calls that take bytes and return a block.
macro_rules! calls {
    ($($name:ident($($argument:ident)*) => $call:path;)*) => {
        $(
            /// Returns the block of this call.
            ///
            /// # Safety
            ///
            /// The address is that of this many bytes of `dz_alloc`.
            #[unsafe(no_mangle)]
            unsafe extern "C" fn $name(address: u32, len: u32 $(, $argument: u32)*) -> u32 {
                // SAFETY: as the caller says.
                leak($call(unsafe { bytes(address, len) } $(, $argument)*))
            }
        )*
    };
}

// The example of the page has one call.
#[cfg(feature = "example")]
calls! {
    dz_assemble() => answers::module_of;
}

#[cfg(not(feature = "example"))]
calls! {
    dz_assemble() => answers::module_of;
    dz_outline() => answers::outline;
    dz_list() => answers::list;
    dz_minimize(choice) => answers::minimize;
    dz_items(index limit) => crate::items::items;
    dz_dump(index limit) => crate::items::dump;
    dz_instructions(limit) => crate::instructions::instructions;
}
