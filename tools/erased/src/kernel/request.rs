//! What can be sent as a request.

use super::{io, vec, ErrorKind, Vec};
use crate::families::vsock::VsockRequest;
use crate::families::ShowRequest;
use crate::filters::RequestWithAttributes;
use crate::inet::InetRequest;
use crate::unix::UnixRequest;
use crate::{
    Emitable, NetlinkHeader, NetlinkMessage, NetlinkSerializable, SockDiagDestroy,
    SockDiagMessage, NETLINK_HEADER_LEN, SOCK_DESTROY, SOCK_DIAG_BY_FAMILY,
};

/// A request that is sent as a netlink message: a record by itself, a message of the port, or the
/// bytes of a netlink message.
pub trait Request {
    /// Returns the bytes of the netlink message. Fails with the kind `InvalidInput` if a length of
    /// the request does not fit its field.
    fn to_message(&self) -> io::Result<Vec<u8>>;
}

/// Returns the error for a request that is not writable.
fn not_writable() -> io::Error {
    io::Error::new(ErrorKind::InvalidInput, "a length of the request does not fit its field")
}

/// Serializes a message of this type, with this value after its header.
fn message_of(message_type: u16, value: &impl Emitable) -> io::Result<Vec<u8>> {
    let size = value.writable_len().ok_or_else(not_writable)?;
    let length = u32::try_from(NETLINK_HEADER_LEN + size).map_err(|_| not_writable())?;
    let mut bytes = vec![0; length as usize];
    let (header, payload) = bytes.split_at_mut(NETLINK_HEADER_LEN);
    NetlinkHeader { length, message_type, ..NetlinkHeader::default() }.write_fields(header);
    value.emit(payload);
    Ok(bytes)
}

/// Serializes the message. Sets the length and the type in its header, as
/// [`NetlinkMessage::finalize`] does.
impl<I: NetlinkSerializable> Request for NetlinkMessage<I> {
    fn to_message(&self) -> io::Result<Vec<u8>> {
        if !self.is_writable() {
            return Err(not_writable());
        }
        let mut bytes = vec![0; self.buffer_len()];
        self.serialize(&mut bytes);
        let header = NetlinkHeader {
            length: bytes.len() as u32,
            message_type: self.payload.message_type(),
            ..self.header
        };
        header.write_fields(&mut bytes[..NETLINK_HEADER_LEN]);
        Ok(bytes)
    }
}

/// Serializes the message. The type in its header has to be that of a request.
impl Request for RequestWithAttributes<'_> {
    fn to_message(&self) -> io::Result<Vec<u8>> {
        let mut bytes = vec![0; self.writable_len().ok_or_else(not_writable)?];
        self.emit(&mut bytes);
        Ok(bytes)
    }
}

/// Copies the bytes of a netlink message.
impl Request for [u8] {
    fn to_message(&self) -> io::Result<Vec<u8>> {
        Ok(self.to_vec())
    }
}

/// Copies the bytes of a netlink message.
impl Request for Vec<u8> {
    fn to_message(&self) -> io::Result<Vec<u8>> {
        Ok(self.clone())
    }
}

impl Request for SockDiagDestroy {
    fn to_message(&self) -> io::Result<Vec<u8>> {
        message_of(SOCK_DESTROY, &self.0)
    }
}

impl<const FAMILY: u8> Request for ShowRequest<FAMILY> {
    fn to_message(&self) -> io::Result<Vec<u8>> {
        message_of(SOCK_DIAG_BY_FAMILY, self)
    }
}

/// Implements `Request` for values that follow a header of the type `SOCK_DIAG_BY_FAMILY`.
macro_rules! requests {
    ($($value:ty),*) => {$(
        impl Request for $value {
            fn to_message(&self) -> io::Result<Vec<u8>> {
                message_of(SOCK_DIAG_BY_FAMILY, self)
            }
        }
    )*};
}

requests!(SockDiagMessage, UnixRequest, InetRequest, VsockRequest);
