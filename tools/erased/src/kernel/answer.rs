//! The answer to a request.

use super::{io, Vec};
use crate::any::AnyReply;
use crate::{padded, DecodeError, FramedMessages, NetlinkHeader, SockDiagView, NETLINK_HEADER_LEN};
use std::error::Error;
use std::fmt::{Display, Formatter};

/// The replies to a request, in the order in which the kernel sent them. It has neither messages
/// that do not belong to the answer, nor control messages such as its end.
#[derive(Clone, Debug, Default, PartialEq, Eq)]
pub struct Answer {
    // The messages, each padded to a multiple of 4.
    bytes: Vec<u8>,
}

impl Answer {
    /// Appends a message.
    pub(super) fn push(&mut self, message: &[u8]) {
        self.bytes.extend_from_slice(message);
        self.bytes.resize(padded(self.bytes.len()), 0);
    }

    /// Returns the messages as one datagram, without an end, for [`FramedMessages`],
    /// [`DumpViews`](crate::DumpViews) and the readers of dumps.
    pub fn as_bytes(&self) -> &[u8] {
        &self.bytes
    }

    /// Returns whether there are no replies.
    pub fn is_empty(&self) -> bool {
        self.bytes.is_empty()
    }

    /// Returns an iterator over the replies, as bytes.
    pub fn replies(&self) -> Replies<'_> {
        Replies { messages: FramedMessages::new(&self.bytes) }
    }

    /// Returns an iterator over the replies about IPv4, IPv6 and UNIX sockets, checked. For a reply
    /// that is invalid, or about a socket of another family, it yields the error, and continues.
    pub fn messages(&self) -> impl Iterator<Item = Result<SockDiagView<'_>, DecodeError>> {
        self.replies().map(|reply| reply.view())
    }
}

/// An iterator over the replies of an [`Answer`].
#[derive(Clone)]
pub struct Replies<'a> {
    messages: FramedMessages<'a>,
}

impl<'a> Iterator for Replies<'a> {
    type Item = Reply<'a>;

    fn next(&mut self) -> Option<Reply<'a>> {
        // The bytes of an answer are complete messages.
        let (header, message) = self.messages.next()?.ok()?;
        Some(Reply { header, payload: &message[NETLINK_HEADER_LEN..] })
    }
}

/// A reply: a message of an answer, with a payload that was not checked. Two methods parse it.
/// Neither of them allocates.
#[derive(Clone, Debug, PartialEq, Eq)]
pub struct Reply<'a> {
    /// The header of the message.
    pub header: NetlinkHeader,
    /// The bytes after the header.
    pub payload: &'a [u8],
}

impl<'a> Reply<'a> {
    /// Checks all of a reply about an IPv4, IPv6 or UNIX socket, as [`SockDiagView::parse`] does.
    pub fn view(&self) -> Result<SockDiagView<'a>, DecodeError> {
        SockDiagView::parse(self.payload, self.header.message_type)
    }

    /// Parses the header of a reply about a socket of any family, as [`AnyReply::parse`] does. A
    /// rejected attribute hides neither the socket nor the other attributes.
    pub fn any_view(&self) -> Result<AnyReply<'a>, DecodeError> {
        AnyReply::parse(self.payload, self.header.message_type)
    }
}

/// The error of a request, with the replies that were received before it. As an [`io::Error`], it
/// is the error by itself.
#[derive(Debug)]
pub struct Incomplete {
    /// The error.
    pub error: io::Error,
    /// The replies, of which others may be missing.
    pub answer: Answer,
}

impl Display for Incomplete {
    fn fmt(&self, f: &mut Formatter<'_>) -> std::fmt::Result {
        self.error.fmt(f)
    }
}

impl Error for Incomplete {}

impl From<io::Error> for Incomplete {
    fn from(error: io::Error) -> Self {
        Incomplete { error, answer: Answer::default() }
    }
}

impl From<Incomplete> for io::Error {
    fn from(incomplete: Incomplete) -> Self {
        incomplete.error
    }
}
