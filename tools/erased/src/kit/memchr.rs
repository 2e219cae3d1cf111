//! The search for a byte, as in the crate memchr.

/// Returns the index of the first byte that is equal to `byte`.
pub fn memchr(byte: u8, bytes: &[u8]) -> Option<usize> {
    bytes.iter().position(|it| *it == byte)
}
