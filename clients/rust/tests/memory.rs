//! The memory of a builder whose values are replaced.

use std::alloc::{GlobalAlloc, Layout, System};
use std::sync::atomic::{AtomicUsize, Ordering};

use hodkhaki::Builder;

/// The allocator of the system, which counts the bytes that are allocated.
struct Counting;

static ALLOCATED: AtomicUsize = AtomicUsize::new(0);

// SAFETY: each call is passed on to the allocator of the system. `realloc` is that of the trait, which
// calls these two.
unsafe impl GlobalAlloc for Counting {
    unsafe fn alloc(&self, layout: Layout) -> *mut u8 {
        ALLOCATED.fetch_add(layout.size(), Ordering::Relaxed);
        // SAFETY: the caller ensures the requirements of `alloc`.
        unsafe { System.alloc(layout) }
    }

    unsafe fn dealloc(&self, block: *mut u8, layout: Layout) {
        ALLOCATED.fetch_sub(layout.size(), Ordering::Relaxed);
        // SAFETY: the block is one of `alloc`, with this layout.
        unsafe { System.dealloc(block, layout) }
    }
}

#[global_allocator]
static ALLOCATOR: Counting = Counting;

/// Of 100,000 values of one key, which have 100 million bytes together, few bytes are kept.
#[test]
fn replaced_texts_are_not_kept() {
    let text = "a text".repeat(170);
    let before = ALLOCATED.load(Ordering::Relaxed);
    let mut builder = Builder::<u32, str>::new();
    for n in 0..100_000 {
        builder.insert(7, &text[n % 7..]);
        let kept = ALLOCATED.load(Ordering::Relaxed).saturating_sub(before);
        assert!(kept < 20_000, "{kept} bytes after {n} values");
    }
    assert_eq!(builder.len(), 1);
}
