//! The C library: the functions of `sockdiag`, and what a library without `std` needs. It
//! does not allocate.
#![no_std]

extern crate sockdiag;

#[link(name = "c")]
extern "C" {
    fn abort() -> !;
}

/// Ends the process: an index or a sum is out of range, which the proofs exclude.
#[panic_handler]
fn panic(_: &core::panic::PanicInfo) -> ! {
    // SAFETY: abort(3) has no precondition.
    unsafe { abort() }
}
