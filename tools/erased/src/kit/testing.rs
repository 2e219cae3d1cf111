//! What only the tests use of the kit, and a Rust program has otherwise.

use super::host::HostRuntime;
use super::memory::{AllocError, AllocFailed};
use super::prelude::{String, TryString, TryVec, Vec};
use core::fmt;

/// Permits a test to end the process.
pub trait Abort {}

impl Abort for HostRuntime {}

impl<T> fmt::Debug for AllocFailed<T> {
    fn fmt(&self, f: &mut fmt::Formatter<'_>) -> fmt::Result {
        f.write_str("AllocFailed")
    }
}

/// `concat` of texts that may fail.
pub trait ConcatIn {
    fn concat_in(&self) -> Result<String, AllocError>;
}

impl ConcatIn for [&str] {
    fn concat_in(&self) -> Result<String, AllocError> {
        String::try_from_str(&self.concat())
    }
}

/// `repeat` of a text or of bytes that may fail.
pub trait RepeatIn {
    type Output;

    fn repeat_in(&self, count: usize) -> Result<Self::Output, AllocError>;
}

impl RepeatIn for str {
    type Output = String;

    fn repeat_in(&self, count: usize) -> Result<String, AllocError> {
        String::try_from_str(&self.repeat(count))
    }
}

impl RepeatIn for [u8] {
    type Output = Vec<u8>;

    fn repeat_in(&self, count: usize) -> Result<Vec<u8>, AllocError> {
        Vec::from_slice(&self.repeat(count))
    }
}
