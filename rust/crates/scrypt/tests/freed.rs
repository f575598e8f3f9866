//! The chunks and the scratch that a call allocates are zeros when it frees them: with the chunks
//! passwords could be tested at little cost.

use scrypt::{Params, StoredHash, hash_text, scrypt};
use std::alloc::{GlobalAlloc, Layout, System};
use std::slice::from_raw_parts;
use std::sync::atomic::{AtomicUsize, Ordering::SeqCst};

/// Of (8, 3, 2): the length of the chunks and of the scratch, and of nothing else.
const LEN: usize = 768;
static FREED: AtomicUsize = AtomicUsize::new(0);
static LEFT: AtomicUsize = AtomicUsize::new(0);
struct Seen;

// SAFETY: the system's, which frees a block after it was read.
unsafe impl GlobalAlloc for Seen {
    unsafe fn alloc(&self, layout: Layout) -> *mut u8 {
        unsafe { System.alloc(layout) }
    }
    unsafe fn dealloc(&self, block: *mut u8, layout: Layout) {
        if layout.size() == LEN {
            let left = unsafe { from_raw_parts(block, LEN) };
            FREED.fetch_add(1, SeqCst);
            LEFT.fetch_add(left.iter().filter(|&&byte| byte != 0).count(), SeqCst);
        }
        unsafe { System.dealloc(block, layout) }
    }
}

#[global_allocator]
static SEEN: Seen = Seen;

#[test]
fn freed_memory() {
    let (params, mut key) = (Params::new(8, 3, 2).unwrap(), [0; 32]);
    scrypt(b"pw", b"salt", &params, &mut key).unwrap();
    assert_eq!((FREED.swap(0, SeqCst), LEFT.swap(0, SeqCst)), (2, 0), "a key");
    let text = hash_text(b"pw", [7; 16], &params).unwrap();
    assert_eq!((FREED.swap(0, SeqCst), LEFT.swap(0, SeqCst)), (2, 0), "a hash");
    StoredHash::read(&text).unwrap().verify(b"pw").unwrap();
    assert_eq!((FREED.swap(0, SeqCst), LEFT.swap(0, SeqCst)), (2, 0), "a verification");
}
