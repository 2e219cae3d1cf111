//! What the sources use of the libraries of the Rattle kit, in plain Rust.

pub mod arrayvec;
pub mod bitflags;
mod boxed;
pub mod byteorder;
pub mod c;
#[cfg(any(feature = "std", all(test, feature = "alloc")))]
pub mod format;
pub mod hex;
mod host;
#[cfg(feature = "std")]
pub mod io;
#[cfg(feature = "std")]
pub mod itoa;
#[cfg(feature = "std")]
pub mod jiff;
#[cfg(feature = "std")]
pub mod json;
pub mod memchr;
#[cfg(not(feature = "alloc"))]
mod no_heap;
pub mod memory;
pub mod smallvec;
pub mod std;
#[cfg(all(test, feature = "alloc"))]
pub mod testing;
#[cfg(feature = "std")]
pub mod unicode;
#[cfg(feature = "std")]
mod unicode_table;
#[cfg(feature = "std")]
pub mod unicode_width;
mod vec;

/// The types that own memory.
#[cfg(feature = "alloc")]
mod heap {
    pub use alloc::boxed::Box;
    pub use alloc::collections::TryReserveError;
    pub use alloc::string::String;
    pub use alloc::vec::{IntoIter, Vec};
}
#[cfg(not(feature = "alloc"))]
use no_heap as heap;

/// The types of the kit with the names of Rust's, and their functions that may fail.
pub mod prelude {
    pub use super::boxed::{TryBox, TryString};
    #[cfg(any(feature = "std", all(test, feature = "alloc")))]
    pub(crate) use super::format::try_format;
    pub use super::heap::{Box, String, Vec};
    pub use super::host::HostRuntime;
    #[cfg(feature = "std")]
    pub(crate) use super::host::{eprintln, println, CollectIn, Eprint};
    #[cfg(all(test, feature = "alloc"))]
    pub(crate) use super::testing::{ConcatIn, RepeatIn};
    pub(crate) use super::vec::try_vec;
    pub use super::vec::TryVec;
}
