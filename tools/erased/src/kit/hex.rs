//! Hexadecimal digits, as in the crate hex.

use super::memory::AllocError;
use super::prelude::{String, TryString, TryVec, Vec};

/// Why digits are not decoded, or bytes are not encoded.
#[derive(Debug, PartialEq, Eq)]
pub enum FromHexError {
    OutOfMemory,
    InvalidDigits,
    InvalidLength,
}

/// Decodes two digits for each byte of the buffer.
pub fn decode_to_slice(digits: &[u8], bytes: &mut [u8]) -> Result<(), FromHexError> {
    if digits.len() % 2 != 0 || digits.len() / 2 != bytes.len() {
        return Err(FromHexError::InvalidLength);
    }
    for (pair, byte) in digits.chunks_exact(2).zip(bytes) {
        let high = value(pair[0]).ok_or(FromHexError::InvalidDigits)?;
        let low = value(pair[1]).ok_or(FromHexError::InvalidDigits)?;
        *byte = 16 * high + low;
    }
    Ok(())
}

fn value(digit: u8) -> Option<u8> {
    match digit {
        b'0'..=b'9' => Some(digit - b'0'),
        b'a'..=b'f' => Some(digit - b'a' + 10),
        b'A'..=b'F' => Some(digit - b'A' + 10),
        _ => None,
    }
}

/// Encodes each byte as two digits of the buffer, in lower case.
pub fn encode_to_slice(bytes: &[u8], digits: &mut [u8]) -> Result<(), FromHexError> {
    if digits.len() % 2 != 0 || digits.len() / 2 != bytes.len() {
        return Err(FromHexError::InvalidLength);
    }
    for (byte, pair) in bytes.iter().zip(digits.chunks_exact_mut(2)) {
        pair[0] = b"0123456789abcdef"[usize::from(byte / 16)];
        pair[1] = b"0123456789abcdef"[usize::from(byte % 16)];
    }
    Ok(())
}

pub fn decode(digits: &str) -> Result<Vec<u8>, FromHexError> {
    let Ok(mut bytes) = Vec::filled(0, digits.len() / 2) else {
        return Err(FromHexError::OutOfMemory);
    };
    decode_to_slice(digits.as_bytes(), &mut bytes)?;
    Ok(bytes)
}

pub fn encode(bytes: &[u8]) -> Result<String, AllocError> {
    let mut digits = Vec::filled(0, 2 * bytes.len())?;
    encode_to_slice(bytes, &mut digits).expect("each byte has two digits");
    String::try_from_str(core::str::from_utf8(&digits).expect("digits are UTF-8"))
}
