//! Without a heap a reply with up to eight attributes that need no memory is parsed, and one with
//! more is not.
#![cfg(not(feature = "alloc"))]

use sockdiag::unix::UnixResponse;
use sockdiag::{DecodeError, Parseable};

/// The header of a reply about a listening UNIX socket.
const HEADER: [u8; 16] = [1, 1, 10, 0, 14, 79, 0, 0, 160, 2, 0, 0, 0, 0, 0, 0];

/// An attribute `UNIX_DIAG_SHUTDOWN`, with its padding.
const SHUTDOWN: [u8; 8] = [5, 0, 6, 0, 2, 0, 0, 0];

/// Returns how many attributes the reply with this number of attributes is parsed to.
fn parsed(count: usize) -> Result<usize, DecodeError> {
    let bytes = [&HEADER[..], &SHUTDOWN.repeat(count)].concat();
    UnixResponse::parse(bytes.as_slice()).map(|reply| reply.nlas.len())
}

#[test]
fn up_to_eight_attributes_need_no_heap() {
    for count in 0..=8 {
        assert_eq!(parsed(count), Ok(count));
    }
}

#[test]
fn a_name_needs_a_heap() {
    for attribute in [[6, 0, 0, 0, b'/', 0, 0, 0], [7, 0, 0, 0, b'/', b'a', 0, 0]] {
        let bytes = [&HEADER[..], &attribute].concat();
        assert_eq!(UnixResponse::parse(bytes.as_slice()), Err(DecodeError::Memory));
    }
}

#[test]
fn nine_attributes_need_a_heap() {
    assert_eq!(parsed(9), Err(DecodeError::Memory));
}
