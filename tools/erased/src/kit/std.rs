//! Rust's `core`, and what the kit's `std` has in addition.

pub use core::{fmt, mem, ops, str, time};

pub mod alloc {
    pub use crate::kit::memory::{AllocError, AllocFailed};
}

pub mod convert {
    /// A text, owned or borrowed.
    pub trait AsStr {
        fn as_str(&self) -> &str;
    }

    impl AsStr for &str {
        fn as_str(&self) -> &str {
            self
        }
    }

    impl AsStr for crate::kit::prelude::String {
        fn as_str(&self) -> &str {
            self
        }
    }
}

pub mod default {
    /// A type with a value for slots that are not used.
    pub trait MadeWith {
        const MADE: Self;
    }
}

pub mod error {
    pub use core::error::Error;
}

#[cfg(feature = "std")]
pub mod env {
    use super::io::{Error, ErrorKind, Result};
    use crate::kit::host::HostRuntime;
    use crate::kit::memory::AllocError;
    use crate::kit::prelude::{String, TryVec, Vec};

    /// Returns the arguments of the process, or an error if one is not valid UTF-8.
    pub fn args(_: &HostRuntime) -> Result<alloc::vec::IntoIter<String>> {
        let mut arguments = Vec::new();
        for argument in ::std::env::args_os() {
            let argument = argument.into_string();
            let argument = argument.map_err(|_| Error::Kind(ErrorKind::InvalidData))?;
            arguments.try_push(argument).map_err(AllocError::from)?;
        }
        Ok(arguments.into_iter())
    }
}

#[cfg(feature = "std")]
pub use super::io;

#[cfg(feature = "std")]
pub mod fs {
    pub use crate::kit::io::File;
}

#[cfg(feature = "std")]
pub mod rt {
    use crate::kit::host::HostRuntime;

    /// The arguments of the process, as bytes.
    pub trait Env {
        /// Copies an argument to the start of a buffer, and returns its length. Fails if there is
        /// no such argument, or the buffer is too short.
        fn arg(&self, index: usize, bytes: &mut [u8]) -> Result<usize, ()>;
    }

    impl Env for HostRuntime {
        fn arg(&self, index: usize, bytes: &mut [u8]) -> Result<usize, ()> {
            let argument = std::env::args_os().nth(index).ok_or(())?;
            let argument = argument.as_encoded_bytes();
            bytes.get_mut(..argument.len()).ok_or(())?.copy_from_slice(argument);
            Ok(argument.len())
        }
    }
}

pub mod net {
    pub use core::net::*;

    /// Parses an address. Bytes that are not ASCII are no address.
    pub fn parse_ascii(text: &[u8]) -> Result<IpAddr, AddrParseError> {
        core::str::from_utf8(text).unwrap_or("").parse()
    }

    #[test]
    fn spaces_are_no_address() {
        for text in [&b" 1.2.3.4"[..], b"1.2.3.4 ", b"::1\n"] {
            assert!(parse_ascii(text).is_err());
        }
        assert!(parse_ascii(b"::1").is_ok() && parse_ascii(b"1.2.3.4").is_ok());
    }
}

pub mod marker {
    pub use core::marker::PhantomData;

    /// A type for contracts only.
    pub enum Brand {}

    /// States what contracts see of a value, so nothing here.
    pub trait Model {}
}

#[cfg(feature = "alloc")]
pub mod process {
    #[cfg(test)]
    pub use crate::kit::testing::Abort;
    #[cfg(feature = "std")]
    pub use ::std::process::ExitCode;
}
