//! Requests to the kernel over a netlink socket, and their answers. Linux only.
//!
//! This module is written by hand, and nothing about it is proved. It parses messages by the
//! functions that are. A program that lists the UNIX sockets of this machine:
//!
//! ```no_run
//! use sockdiag::kernel::Kernel;
//! use sockdiag::unix::{ShowFlags, StateFlags, UnixRequest};
//! use sockdiag::SockDiagView;
//!
//! fn main() -> Result<(), Box<dyn std::error::Error>> {
//!     let request = UnixRequest {
//!         // `StateFlags::all()` lacks the state of most datagram sockets.
//!         state_flags: StateFlags::every_state(),
//!         inode: 0,
//!         show_flags: ShowFlags::NAME | ShowFlags::PEER,
//!         cookie: [0xff; 8],
//!     };
//!     for message in Kernel::new().dump(&request)?.messages() {
//!         if let SockDiagView::UnixResponse(reply) = message? {
//!             println!("inode {} name {:?}", reply.header().inode, reply.name());
//!         }
//!     }
//!     Ok(())
//! }
//! ```
//!
//! An [`Answer`] has replies as bytes, and parsed as you choose: see [`Reply`]. The example
//! `list_sockets` lists sockets of six kinds, also those with an attribute that is rejected.
//!
//! Single sockets are requested by [`Kernel::request`], which also sends the request to close
//! sockets:
//!
//! ```no_run
//! use sockdiag::inet::InetRequest;
//! use sockdiag::kernel::Kernel;
//! use sockdiag::{SockDiagDestroy, SockDiagMessage};
//!
//! fn close(socket: InetRequest) -> std::io::Result<()> {
//!     let destroy = SockDiagDestroy::new(SockDiagMessage::InetRequest(socket));
//!     Kernel::new().request(&destroy).map(drop)
//! }
//! ```
#![cfg(any(target_os = "linux", target_os = "android"))]

mod answer;
mod request;
mod socket;

pub use answer::{Answer, Incomplete, Replies, Reply};
pub use request::Request;
pub use socket::Socket;

use crate::{
    error_number, FramedMessages, NetlinkHeader, NETLINK_HEADER_LEN, NLMSG_DONE, NLMSG_ERROR,
    NLMSG_NOOP, NLMSG_OVERRUN, NLM_F_ACK, NLM_F_DUMP, NLM_F_DUMP_INTR, NLM_F_REQUEST,
};
use std::io::{self, ErrorKind};
use std::vec;
use std::vec::Vec;

#[cfg(any(target_arch = "mips64", target_arch = "mips64r6"))]
compile_error!("MIPS has other error numbers");

/// The least message type of a protocol. Lower ones are those of control messages.
const NLMSG_MIN_TYPE: u16 = 16;
const EPROTO: i32 = 71;
const EMSGSIZE: i32 = 90;
const ENOBUFS: i32 = 105;

/// How often a dump is requested if it is always interrupted or data is always lost.
pub const ATTEMPTS: u32 = 10;

/// Number of bytes that the buffer for a datagram has in addition to those of the request, which
/// the kernel repeats in an error. A datagram of a dump has at most 32 KiB.
const BUFFER_LENGTH: usize = 1 << 16;

/// A socket on which one request is sent, and its answer received: a [`Socket`], or a test double
/// of the kernel.
pub trait Connection {
    /// Returns the port id of the socket, which each message of an answer has.
    fn port_number(&self) -> u32;

    /// Sends a message to the kernel.
    fn send(&mut self, message: &[u8]) -> io::Result<()>;

    /// Receives a datagram to the start of the buffer, and returns its length. If it exceeds the
    /// buffer, the rest of the datagram is dropped, and the length is that of the whole one.
    fn receive(&mut self, buffer: &mut [u8]) -> io::Result<usize>;
}

/// Sends requests to the kernel, and receives the answers. `O` opens the [`Connection`] of each
/// attempt.
#[derive(Clone, Debug)]
pub struct Kernel<O = fn() -> io::Result<Socket>> {
    open: O,
    // The number of the last request.
    sequence_number: u32,
}

impl Kernel {
    /// Returns a value that opens a [`Socket`] for each attempt. Opens none yet.
    pub fn new() -> Self {
        Kernel::with(Socket::open)
    }
}

impl Default for Kernel {
    fn default() -> Self {
        Kernel::new()
    }
}

impl<C: Connection, O: FnMut() -> io::Result<C>> Kernel<O> {
    /// Returns a value that opens connections by this function, such as test doubles.
    pub fn with(open: O) -> Self {
        Kernel { open, sequence_number: 0 }
    }

    /// Requests all sockets that the request selects, and returns the replies when the dump has
    /// ended. Sets the sequence number of the request, and its flags `NLM_F_REQUEST`, `NLM_F_DUMP`
    /// and `NLM_F_ACK`. The kernel does not acknowledge a dump. It acknowledges `SOCK_DESTROY`, to
    /// which no other answer would be received.
    ///
    /// A dump that was interrupted, or of which data was lost, is requested again, each time on
    /// another socket: the rest of the answer is not received there. Sockets that open or close
    /// during a dump may be missing or listed twice all the same, since the kernel does not report
    /// it.
    ///
    /// The error has the replies that were received in the last attempt:
    ///
    /// - the kind `Interrupted`, if all [`ATTEMPTS`] were interrupted or lost data;
    /// - the kind `InvalidInput`, if the request cannot be serialized, or is not one message of a
    ///   protocol;
    /// - `EMSGSIZE`, if a datagram exceeds the buffer;
    /// - `EPROTO`, if the end of the dump has no error number, or an invalid one;
    /// - that of [`Socket::open`], or of another call;
    /// - that which the kernel sent: `ENOENT` or `EINVAL` if it lacks the protocol or the family.
    pub fn dump<R: Request + ?Sized>(&mut self, request: &R) -> Result<Answer, Incomplete> {
        self.answer(request, NLM_F_DUMP, ATTEMPTS)
    }

    /// Sends a request that is not one for a dump, and returns the replies until it is
    /// acknowledged: one reply to a request for a single socket, and none to one to close sockets.
    /// Sets the sequence number of the request, and its flags `NLM_F_REQUEST` and `NLM_F_ACK`.
    ///
    /// The request is sent once. The errors are those of [`Kernel::dump`]: `ENOENT` or `ESTALE`
    /// from the kernel if there is no such socket, or if it has another cookie. `new_v4` and
    /// `new_v6` of a socket id set a cookie of zeros, which the kernel compares too; eight bytes
    /// 0xff match any. The kind `Interrupted` means that data was lost, so that it is unknown
    /// whether the request had an effect.
    pub fn request<R: Request + ?Sized>(&mut self, request: &R) -> io::Result<Answer> {
        Ok(self.answer(request, 0, 1)?)
    }

    /// Sends a request with these flags until its answer is complete, at most `attempts` times.
    fn answer<R: Request + ?Sized>(
        &mut self,
        request: &R,
        flags: u16,
        attempts: u32,
    ) -> Result<Answer, Incomplete> {
        let mut message = request.to_message()?;
        set_flags(&mut message, flags | NLM_F_REQUEST | NLM_F_ACK)?;
        let mut answer = Answer::default();
        for _ in 0..attempts {
            answer = Answer::default();
            match self.attempt(&mut message, &mut answer) {
                Ok(End::Complete) => return Ok(answer),
                Ok(End::Incomplete) => {}
                Err(error) => return Err(Incomplete { error, answer }),
            }
        }
        let text = "interrupted, or data lost, at each attempt";
        let error = io::Error::new(ErrorKind::Interrupted, text);
        Err(Incomplete { error, answer })
    }

    /// Sends the message on a new connection, and receives the answer.
    fn attempt(&mut self, message: &mut [u8], answer: &mut Answer) -> io::Result<End> {
        self.sequence_number = self.sequence_number.wrapping_add(1);
        let number = self.sequence_number;
        message[8..12].copy_from_slice(&number.to_le_bytes());
        let mut connection = (self.open)()?;
        uninterrupted(|| connection.send(message))?;
        let port_number = connection.port_number();
        let mut receiver = Receiver { number, port_number, is_interrupted: false, answer };
        receiver.receive(&mut connection, &mut vec![0; BUFFER_LENGTH + message.len()])
    }
}

/// Adds flags to a message. Fails with the kind `InvalidInput` if the bytes are not exactly one
/// message with its padding, or if its type is that of a control message: the kernel executes
/// several messages, and skips control messages.
fn set_flags(bytes: &mut [u8], flags: u16) -> io::Result<()> {
    let invalid = |text| Err(io::Error::new(ErrorKind::InvalidInput, text));
    let Some(Ok((header, _))) = FramedMessages::new(bytes).next() else {
        return invalid("the request is not a netlink message");
    };
    if FramedMessages::new(bytes).nth(1).is_some() {
        return invalid("bytes follow the message of the request");
    }
    if header.message_type < NLMSG_MIN_TYPE {
        return invalid("the message type of the request is that of a control message");
    }
    bytes[6..8].copy_from_slice(&(header.flags | flags).to_le_bytes());
    Ok(())
}

/// Repeats a call until no signal interrupts it.
fn uninterrupted<T>(mut call: impl FnMut() -> io::Result<T>) -> io::Result<T> {
    loop {
        match call() {
            Err(error) if error.kind() == ErrorKind::Interrupted => {}
            result => return result,
        }
    }
}

/// The end of an answer.
enum End {
    Complete,
    /// The dump was interrupted, or data was lost.
    Incomplete,
}

/// Receives the answer to a request with this sequence number and port id.
struct Receiver<'a> {
    number: u32,
    port_number: u32,
    // Whether a message of the answer had the flag `NLM_F_DUMP_INTR`.
    is_interrupted: bool,
    answer: &'a mut Answer,
}

impl Receiver<'_> {
    /// Receives datagrams until the answer ends, or data is lost, after which there may be no end.
    fn receive(&mut self, from: &mut impl Connection, buffer: &mut [u8]) -> io::Result<End> {
        loop {
            let length = match uninterrupted(|| from.receive(buffer)) {
                Ok(length) => length,
                // Datagrams were dropped.
                Err(error) if error.raw_os_error() == Some(ENOBUFS) => return Ok(End::Incomplete),
                Err(error) => return Err(error),
            };
            let Some(datagram) = buffer.get(..length) else {
                return Err(io::Error::from_raw_os_error(EMSGSIZE));
            };
            if let Some(end) = self.read(datagram)? {
                return Ok(end);
            }
        }
    }

    /// Appends the replies of a datagram to the answer. Returns its end, if the datagram has it, or
    /// if data was lost.
    fn read(&mut self, datagram: &[u8]) -> io::Result<Option<End>> {
        for message in FramedMessages::new(datagram) {
            // After a framing error the rest of the datagram is unknown, and may have the end.
            let Ok((header, message)) = message else {
                return Ok(Some(End::Incomplete));
            };
            if header.message_type == NLMSG_OVERRUN {
                return Ok(Some(End::Incomplete));
            }
            if !self.is_of_answer(&header) {
                continue;
            }
            self.is_interrupted |= header.flags & NLM_F_DUMP_INTR != 0;
            match header.message_type {
                NLMSG_DONE | NLMSG_ERROR => {
                    return self.end(&message[NETLINK_HEADER_LEN..]).map(Some);
                }
                NLMSG_NOOP => {}
                _ => self.answer.push(message),
            }
        }
        Ok(None)
    }

    /// Returns whether a message with this header belongs to the answer.
    fn is_of_answer(&self, header: &NetlinkHeader) -> bool {
        header.sequence_number == self.number && header.port_number == self.port_number
    }

    /// Returns the end with this payload, whose error number is 0 or `-errno`.
    fn end(&self, payload: &[u8]) -> io::Result<End> {
        match error_number(payload) {
            Some(0) if self.is_interrupted => Ok(End::Incomplete),
            Some(0) => Ok(End::Complete),
            Some(number @ -4095..=-1) => Err(io::Error::from_raw_os_error(-number)),
            _ => Err(io::Error::from_raw_os_error(EPROTO)),
        }
    }
}
