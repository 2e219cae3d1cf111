//! The netlink socket, by calls of the C library. This is the only file of the module with unsafe
//! code.
#![allow(unsafe_code)]

use super::{io, Connection};
use std::ffi::{c_int, c_void};
use std::os::fd::{AsFd, AsRawFd, BorrowedFd, FromRawFd, OwnedFd};

const AF_NETLINK: u16 = 16;
const SOCK_RAW: c_int = 3;
const SOCK_CLOEXEC: c_int = 0o2000000;
const NETLINK_SOCK_DIAG: c_int = 4;
const F_GETFD: c_int = 1;
const MSG_TRUNC: c_int = 0x20;
/// The highest file descriptor of standard input, output and error, which are 0, 1 and 2.
const LAST_STREAM: c_int = 2;

/// The address of a netlink socket: `struct sockaddr_nl` of netlink(7).
#[repr(C)]
struct Address {
    family: u16,
    pad: u16,
    port_number: u32,
    groups: u32,
}

/// Length of an [`Address`] in bytes.
const ADDRESS_LENGTH: u32 = 12;

extern "C" {
    fn fcntl(fd: c_int, command: c_int, ...) -> c_int;
    fn socket(family: c_int, kind: c_int, protocol: c_int) -> c_int;
    fn connect(fd: c_int, address: *const Address, length: u32) -> c_int;
    fn getsockname(fd: c_int, address: *mut Address, length: *mut u32) -> c_int;
    fn send(fd: c_int, bytes: *const c_void, length: usize, flags: c_int) -> isize;
    fn recv(fd: c_int, buffer: *mut c_void, length: usize, flags: c_int) -> isize;
}

/// A netlink socket of `NETLINK_SOCK_DIAG`, to which only the kernel can send. exec(2) closes it.
/// Dropping it closes it.
#[derive(Debug)]
pub struct Socket {
    fd: OwnedFd,
    port_number: u32,
}

impl Socket {
    /// Opens a socket, and connects it to the port id 0, which is the kernel's.
    ///
    /// Fails if standard input, output or error is not open: the socket would get its descriptor,
    /// and the kernel would receive what is written there. Before `main`, Rust's standard library
    /// opens /dev/null for each descriptor of these that is not open.
    pub fn open() -> io::Result<Socket> {
        check_streams()?;
        let (family, kind) = (AF_NETLINK.into(), SOCK_RAW | SOCK_CLOEXEC);
        // SAFETY: the arguments of socket(2) are three numbers, and it accesses no memory.
        let fd = unsafe { socket(family, kind, NETLINK_SOCK_DIAG) };
        checked(fd)?;
        // SAFETY: the descriptor is open, and nothing else owns it.
        let fd = unsafe { OwnedFd::from_raw_fd(fd) };
        // Another thread has closed a stream since.
        if fd.as_raw_fd() <= LAST_STREAM {
            return Err(not_open());
        }
        let mut address = Address { family: AF_NETLINK, pad: 0, port_number: 0, groups: 0 };
        let mut length = ADDRESS_LENGTH;
        // SAFETY: connect(2) reads the address, a local, which has this length.
        checked(unsafe { connect(fd.as_raw_fd(), &address, length) })?;
        // SAFETY: getsockname(2) writes at most this length to the address, and sets the length.
        // Both are locals.
        checked(unsafe { getsockname(fd.as_raw_fd(), &mut address, &mut length) })?;
        Ok(Socket { fd, port_number: address.port_number })
    }
}

impl AsFd for Socket {
    fn as_fd(&self) -> BorrowedFd<'_> {
        self.fd.as_fd()
    }
}

impl Connection for Socket {
    fn port_number(&self) -> u32 {
        self.port_number
    }

    fn send(&mut self, message: &[u8]) -> io::Result<()> {
        // SAFETY: send(2) reads the bytes of the slice.
        let sent = unsafe { send(self.fd.as_raw_fd(), message.as_ptr().cast(), message.len(), 0) };
        checked(sent).map(drop)
    }

    /// Receives a datagram. With `MSG_TRUNC`, recv(2) returns the length of a datagram that exceeds
    /// the buffer.
    fn receive(&mut self, buffer: &mut [u8]) -> io::Result<usize> {
        let (start, length) = (buffer.as_mut_ptr().cast(), buffer.len());
        // SAFETY: recv(2) writes at most this length to the buffer, also with `MSG_TRUNC`.
        checked(unsafe { recv(self.fd.as_raw_fd(), start, length, MSG_TRUNC) })
    }
}

/// Returns the result of a call, or the error in errno if it is negative.
fn checked(result: impl TryInto<usize>) -> io::Result<usize> {
    result.try_into().map_err(|_| io::Error::last_os_error())
}

/// Fails if standard input, output or error is not open.
fn check_streams() -> io::Result<()> {
    // SAFETY: fcntl(2) with `F_GETFD` has no third argument, and it accesses no memory.
    let is_open = |fd| unsafe { fcntl(fd, F_GETFD) } >= 0;
    if (0..=LAST_STREAM).all(is_open) {
        Ok(())
    } else {
        Err(not_open())
    }
}

/// Returns the error if standard input, output or error is not open.
fn not_open() -> io::Error {
    io::Error::other("standard input, output or error is not open")
}
