//! The three heap functions that the library calls, written with those of the C library.
//!
//! They do what `bindings/c/heap.c` does, so that building this crate needs no C compiler.
#![allow(unsafe_code)]

use std::ffi::c_void;

/// Whether there is a block, and its address. The pointer isn't null, even if there is no block.
#[repr(C)]
pub struct Block {
    is_there: bool,
    at: *mut c_void,
}

extern "C" {
    fn malloc(size: usize) -> *mut c_void;
    fn realloc(at: *mut c_void, size: usize) -> *mut c_void;
    fn free(at: *mut c_void);
}

/// A pointer that isn't null, and that nobody follows.
fn nowhere() -> *mut c_void {
    16 as *mut c_void
}

/// `malloc` aligns a block to each power of two up to 16 that divides its size.
#[no_mangle]
extern "C" fn rattle_alloc(size: usize, _align: usize) -> Block {
    // SAFETY: any size is allowed.
    let at = unsafe { malloc(size.max(1)) };
    Block {
        is_there: !at.is_null(),
        at: if at.is_null() { nowhere() } else { at },
    }
}

#[no_mangle]
extern "C" fn rattle_realloc(at: *mut c_void, _kept: usize, size: usize, _align: usize) -> Block {
    // SAFETY: the library passes a block of `rattle_alloc` that it hasn't freed.
    let moved = unsafe { realloc(at, size.max(1)) };
    Block {
        is_there: !moved.is_null(),
        at: if moved.is_null() { at } else { moved },
    }
}

#[no_mangle]
extern "C" fn rattle_dealloc(at: *mut c_void) {
    // SAFETY: the library frees each block of `rattle_alloc` once.
    unsafe { free(at) }
}
