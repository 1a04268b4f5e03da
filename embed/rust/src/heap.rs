//! The heap of the libraries over Rust's global allocator, in place of `heap.c`: with the feature `global-allocator`.
//!
//! A block has its length in front, since the libraries free a block by its address alone. The rules that are kept stand
//! in `sm_heap.h`.

use std::alloc::{alloc, dealloc, realloc, Layout};

/// The alignment of each block, and the bytes in front of it.
const FRONT: usize = 16;

/// `struct sm_block`.
#[repr(C)]
pub struct Block {
    ok: bool,
    at: *mut u8,
}

/// Where there is no block: an address that is not null, at which nothing is read or written.
const NONE: Block = Block { ok: false, at: std::ptr::NonNull::dangling().as_ptr() };

/// The layout of a block of so many bytes with its front, if there is one.
fn layout_of(bytes: usize) -> Option<Layout> {
    Layout::from_size_align(bytes.checked_add(FRONT)?, FRONT).ok()
}

/// The block whose front is at an address, which is null if memory was refused.
///
/// # Safety
///
/// An address that is not null has room for the front, and is aligned to it.
unsafe fn block_at(front: *mut u8, bytes: usize) -> Block {
    if front.is_null() {
        return NONE;
    }
    front.cast::<usize>().write(bytes);
    Block { ok: true, at: front.add(FRONT) }
}

/// Takes a block. `align` divides 16.
#[no_mangle]
extern "C" fn rattle_alloc(bytes: usize, _align: usize) -> Block {
    // SAFETY: the layout has the front, so it is of more than 0 bytes.
    layout_of(bytes).map_or(NONE, |layout| unsafe { block_at(alloc(layout), bytes) })
}

/// Makes a block longer or shorter. It keeps its first bytes, and stays as it is if memory is refused.
///
/// # Safety
///
/// The block is one that these functions gave.
#[no_mangle]
unsafe extern "C" fn rattle_realloc(at: *mut u8, _kept: usize, bytes: usize, _align: usize) -> Block {
    let front = at.sub(FRONT);
    let before = layout_of(front.cast::<usize>().read());
    match (before, layout_of(bytes)) {
        (Some(before), Some(after)) => block_at(realloc(front, before, after.size()), bytes),
        _ => NONE,
    }
}

/// Frees a block.
///
/// # Safety
///
/// The block is one that these functions gave, and nobody uses it afterwards.
#[no_mangle]
unsafe extern "C" fn rattle_dealloc(at: *mut u8) {
    let front = at.sub(FRONT);
    if let Some(layout) = layout_of(front.cast::<usize>().read()) {
        dealloc(front, layout);
    }
}
