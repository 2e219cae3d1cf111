//! References to what C passes. Each function requires what include/sockdiag.h requires of its
//! caller: valid pointers, to memory that nothing else writes during the call, nor reads if the
//! call writes it.
#![allow(unsafe_code, clippy::missing_safety_doc)]

use core::arch::asm;
use core::mem::MaybeUninit;
use core::slice::{from_raw_parts, from_raw_parts_mut};

/// Returns a value that C passes.
pub unsafe fn value<'a, T>(start: *const T) -> &'a T {
    &*start
}

/// Returns a number or a struct that C passes, which may be uninitialized. Each bit pattern has to
/// be valid for `T`.
pub unsafe fn place<'a, T>(start: *mut MaybeUninit<T>) -> &'a mut T {
    initialize(start.cast());
    &mut *start.cast()
}

/// Returns the bytes that C passes. The pointer is not used if there are none.
pub unsafe fn bytes<'a>(start: *const u8, length: usize) -> &'a [u8] {
    if length == 0 {
        return &[];
    }
    from_raw_parts(start, length)
}

/// Returns the buffer that C passes, which may be uninitialized. The pointer is not used if there
/// are no bytes.
pub unsafe fn bytes_mut<'a>(start: *mut MaybeUninit<u8>, length: usize) -> &'a mut [u8] {
    if length == 0 {
        return &mut [];
    }
    initialize(start.cast());
    from_raw_parts_mut(start.cast(), length)
}

/// Makes memory initialized, with the bytes that it has. To the compiler the empty line of assembly
/// may write any bytes at the pointer, so that it cannot assume that they are uninitialized.
fn initialize(start: *mut u8) {
    // SAFETY: there is no instruction.
    unsafe { asm!("/* {0} */", in(reg) start, options(nostack, preserves_flags)) }
}

#[test]
fn no_bytes_at_a_null_pointer() {
    use core::ptr::{null, null_mut};
    // SAFETY: there are no bytes.
    let (bytes, buffer) = unsafe { (bytes(null(), 0), bytes_mut(null_mut(), 0)) };
    assert!(!bytes.as_ptr().is_null() && !buffer.as_ptr().is_null());
}
