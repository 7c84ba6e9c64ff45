//! An allocator that can be made to cost next to nothing, for the few vectors of a call: a stack in a fixed array, which starts anew when all
//! its blocks are given back, in whatever order.

use std::alloc::{GlobalAlloc, Layout, System};
use std::cell::UnsafeCell;
use std::sync::atomic::{AtomicBool, Ordering::Relaxed};

const SIZE: usize = 4096;

#[repr(align(16))]
struct Stack {
    bytes: UnsafeCell<[u8; SIZE]>,
    top: UnsafeCell<usize>,
    /// Blocks that are not given back.
    live: UnsafeCell<usize>,
    on: AtomicBool,
}

// This program has one thread.
unsafe impl Sync for Stack {}

#[global_allocator]
static STACK: Stack = Stack {
    bytes: UnsafeCell::new([0; SIZE]),
    top: UnsafeCell::new(0),
    live: UnsafeCell::new(0),
    on: AtomicBool::new(false),
};

/// Turns the stack on or off for what is allocated from now on.
pub fn cheap(on: bool) {
    STACK.on.store(on, Relaxed);
}

impl Stack {
    /// Where the block stands in the stack; none where it is the system's.
    #[inline(always)]
    fn place(&self, block: *mut u8) -> Option<usize> {
        let place = (block as usize).wrapping_sub(self.bytes.get() as usize);
        (place < SIZE).then_some(place)
    }

    #[inline(always)]
    unsafe fn give_back(&self) {
        *self.live.get() -= 1;
        if *self.live.get() == 0 {
            *self.top.get() = 0;
        }
    }
}

unsafe impl GlobalAlloc for Stack {
    #[inline(always)]
    unsafe fn alloc(&self, layout: Layout) -> *mut u8 {
        let top = (*self.top.get()).next_multiple_of(16);
        if !self.on.load(Relaxed) || top + layout.size() > SIZE {
            return System.alloc(layout);
        }
        *self.top.get() = top + layout.size();
        *self.live.get() += 1;
        (self.bytes.get() as *mut u8).add(top)
    }

    #[inline(always)]
    unsafe fn dealloc(&self, block: *mut u8, layout: Layout) {
        match self.place(block) {
            Some(_) => self.give_back(),
            None => System.dealloc(block, layout),
        }
    }

    #[inline(always)]
    unsafe fn realloc(&self, block: *mut u8, layout: Layout, size: usize) -> *mut u8 {
        match self.place(block) {
            // The last block grows where it stands.
            Some(place) if place + layout.size() == *self.top.get() && place + size <= SIZE => {
                *self.top.get() = place + size;
                block
            }
            Some(_) => {
                let next = self.alloc(Layout::from_size_align_unchecked(size, layout.align()));
                std::ptr::copy_nonoverlapping(block, next, layout.size().min(size));
                self.give_back();
                next
            }
            None => System.realloc(block, layout, size),
        }
    }
}
