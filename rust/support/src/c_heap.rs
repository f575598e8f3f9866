//! The memory of the C library (bindings/c/blocks.c), which is cleared when it is freed.

use core::alloc::{GlobalAlloc, Layout};

unsafe extern "C" {
    fn clearing_malloc(size: usize) -> *mut u8;
    fn clearing_realloc(at: *mut u8, size: usize) -> *mut u8;
    fn clearing_free(at: *mut u8);
}

struct Heap;

#[global_allocator]
static HEAP: Heap = Heap;

// SAFETY: these are C's malloc, realloc and free, with the same conditions.
unsafe impl GlobalAlloc for Heap {
    // Addresses are multiples of 16; the source has no type with a greater alignment.
    unsafe fn alloc(&self, layout: Layout) -> *mut u8 {
        if layout.align() > 16 {
            return core::ptr::null_mut();
        }
        unsafe { clearing_malloc(layout.size()) }
    }

    unsafe fn realloc(&self, at: *mut u8, _: Layout, size: usize) -> *mut u8 {
        unsafe { clearing_realloc(at, size) }
    }

    unsafe fn dealloc(&self, at: *mut u8, _: Layout) {
        unsafe { clearing_free(at) }
    }
}
