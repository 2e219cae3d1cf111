//! Messages of sock_diag(7): the proved sources of sockdiag without their contracts.
//!
//! The crate works on bytes: it serializes requests, and parses what the kernel answers. The module
//! `kernel` sends requests and receives answers.
//!
//! ```
//! use sockdiag::unix::{ShowFlags, StateFlags, UnixRequest};
//! use sockdiag::{DumpViews, NLM_F_DUMP, NLM_F_REQUEST, NetlinkHeader, NetlinkMessage};
//! use sockdiag::{PayloadView, SockDiagMessage, SockDiagView};
//!
//! // A request for the names of all UNIX sockets.
//! let request = UnixRequest {
//!     state_flags: StateFlags::every_state(),
//!     inode: 0,
//!     show_flags: ShowFlags::NAME,
//!     cookie: [0xff; 8],
//! };
//! let header = NetlinkHeader { flags: NLM_F_REQUEST | NLM_F_DUMP, ..Default::default() };
//! let mut message = NetlinkMessage::new(header, SockDiagMessage::UnixRequest(request).into());
//! message.finalize();
//! let mut bytes = vec![0; message.buffer_len()];
//! message.serialize(&mut bytes);
//! assert_eq!(bytes.len(), 40);
//!
//! // A datagram of the answer, with one socket.
//! let datagram = b"\x28\0\0\0\x14\0\x02\0\0\0\0\0\0\0\0\0\
//!     \x01\x01\x0a\0\x4e\0\0\0\x01\0\0\0\0\0\0\0\x07\0\0\0/a\0\0";
//! for payload in DumpViews::new(datagram) {
//!     match payload? {
//!         PayloadView::InnerMessage(SockDiagView::UnixResponse(reply)) => {
//!             println!("{} {:?}", reply.header().inode, reply.name());
//!         }
//!         PayloadView::Done(_) => break,
//!         _ => {}
//!     }
//! }
//! # Ok::<(), sockdiag::DecodeError>(())
//! ```
//!
//! Owned replies, such as [`unix::UnixResponse`], have the names and methods of
//! `netlink-packet-sock-diag`. Views, such as [`unix::UnixResponseView`], borrow the bytes. A
//! [`DumpReader`] collects the replies of several datagrams, and a [`LossyDump`] continues after
//! invalid ones.
//!
//! # Preconditions
//!
//! The proofs show that every function returns, for all inputs that it permits. Most functions
//! permit all inputs. Those in the table do not, and rustc does not check their conditions. If a
//! caller breaks a condition, the function panics, or returns or writes a wrong number. The
//! behaviour is never undefined: all of these functions are safe code.
//!
//! | function | condition | test, or function without the condition | if it is broken |
//! |---|---|---|---|
//! | [`Emitable::buffer_len`], [`NetlinkSerializable::buffer_len`], [`NetlinkMessage::buffer_len`] | the value is writable | `is_writable`; [`Emitable::writable_len`] | returns a length that a length field cannot hold |
//! | [`Emitable::emit`], [`NetlinkSerializable::serialize`], [`NetlinkMessage::serialize`] | the value is writable | `is_writable`; [`write_new`] | writes a length field that is too small |
//! | the same | the buffer has at least `buffer_len()` bytes | [`write_new`] | panics, and may have written a part |
//! | [`NetlinkMessage::finalize`] | the message is writable | [`NetlinkMessage::is_writable`] | sets a length that is too small |
//! | [`Nla::emit_value`], [`nla_len`], [`emit_nla`] | the value has at most 65,531 bytes | [`Nla::value_fits`] | writes a length field that is too small |
//! | [`nlas_len`], [`emit_nlas`] | each value has at most 65,531 bytes, and all attributes at most 4,294,967,295 | [`nlas_writable`], [`nlas_len_within`] | the same |
//! | [`Nla::emit_value`], [`emit_nla`], [`emit_nlas`] | the buffer has at least as many bytes as are written | [`Nla::value_len`], [`nla_len`], [`nlas_len`] | panics |
//! | [`emit_u32`] | the buffer has at least 4 bytes | `len` of the buffer | panics |
//! | [`padded`] | the length is below 2<sup>32</sup> | | returns the right length up to `usize::MAX - 3`; above it an overflow |
//! | [`NlaBuffer::new`], [`NlasIterator::next_accepted`] | the bytes begin with an attribute; for `next_accepted` there may also be none | [`NlaBuffer::new_checked`], `next` of [`NlasIterator`] | panics |
//! | [`unix::nlas::NameView::new`], [`unix::nlas::NlaView::new`], [`inet::nlas::NlaView::new`], [`FamilyView::read_accepted`], [`FamilyNla::own_accepted`] | the parser accepts the bytes or the attribute | `parse` of the same type; [`FamilyView::read_view`] | panics, or returns a value that the parser rejects |
//! | [`same_views`], [`ReplyHeader::is_same`], [`ReplyHeader::len_with`], [`ReplyHeader::emit_with`] | the bytes have no decode error | [`ReplyHeader::check`]; `==`, `writable_len` and `emit` of a [`ReplyView`] | panics, or returns or writes a wrong value |
//! | [`ReplyHeader::emit_with`] | the reply is writable, and the buffer has its length | [`ReplyHeader::check_len`] | as `emit` |
//! | [`Record::from_fields`], [`extras::AttributeRecord::from_fields`] | there are as many bytes as the record needs | [`read_record`], [`extras::read_attribute_record`] | panics |
//! | [`Record::write_fields`], [`extras::AttributeRecord::write_fields`] | the buffer has exactly the length of the record | [`Record::size`], [`extras::AttributeRecord::size`] | panics |
//! | [`extras::write_attribute_record`] | the buffer is at least as long as the record | [`extras::AttributeRecord::size`] | panics |
//! | [`extras::NestedNlas::number_of`] | the width is 1 to 8 | | 0 for a width of 0; panics above 8 if there is a value of this length |
//! | [`any::RawTimer::parse`] | there are at least 72 bytes | [`any::AnyReply::timer`] | panics if there are fewer than 56, and else returns what they have |
//! | the functions of [`fields`] | the bytes or the buffer have the length that the function names | `len` | panics |
//! | [`SmallVec::push_reserved`] | there is capacity | [`SmallVec::push`] | panics |
//!
//! The fields of a [`filters::Prefix`] are public. In Rattle a proof excludes more bits than its
//! address has, and here nothing does: make it by [`filters::Prefix::new`]. With more bits
//! [`filters::assemble`] returns a program that the kernel rejects, and
//! [`filters::SocketFacts::meets`] is an overflow.
//!
//! "An overflow" panics if overflow checks are on, and else returns a wrong number. The profiles of
//! this package turn them on. If your program depends on it, the profile of your program decides.
//!
//! If an allocation fails, `push` panics, and so does `clone` of a reply, of a [`SockDiagMessage`]
//! and of a [`DefaultNla`]. `clone` of a name, an attribute or a [`NetlinkPayload`] may end the
//! process, as that of a `Vec` does. `try_clone`, which a [`NetlinkMessage`] and its payload lack,
//! and `try_reserve_exact` return the error.
#![no_std]
#![deny(unsafe_code)]
// What only contracts, proofs, other crates or the C library use is left.
#![allow(dead_code, unused_imports, unused_labels, private_bounds)]
// The sources have the forms that the prover reads best.
#![allow(clippy::style, clippy::complexity, clippy::manual_unwrap_or_default)]
// Without a heap nothing has to be dropped.
#![cfg_attr(not(feature = "alloc"), allow(clippy::drop_non_drop, clippy::forget_non_drop))]

#[cfg(feature = "alloc")]
extern crate alloc;
#[cfg(feature = "std")]
extern crate std;

// WASI has 32 bits. There only the program `sslist` is compiled, for a page for browsers.
#[cfg(not(any(target_pointer_width = "64", target_os = "wasi")))]
compile_error!("the contracts are about a `usize` of 64 bits: with another one they say nothing");

#[cfg(not(target_endian = "little"))]
compile_error!("the kernel's messages have the byte order of the machine, here little-endian");

#[cfg(feature = "c")]
mod c_memory;
mod errors;
mod flags;
#[cfg(feature = "std")]
pub mod kernel;
#[forbid(unsafe_code)]
mod kit;
mod owned;

mod attribute_lists;
mod exact_values;
#[cfg(all(test, feature = "alloc"))]
#[allow(unused)]
mod extension_tests;
#[cfg(feature = "std")]
mod netlink_captures;
mod netlink_core;
mod netlink_packet_sock_diag;
#[cfg(feature = "std")]
mod program_streams;
mod sock_diag_any;
mod sock_diag_attributes;
mod sock_diag_extras;
mod sock_diag_families;
mod sock_diag_filters;
#[cfg(feature = "std")]
mod sock_diag_lines;
mod sock_diag_records;
mod sock_diag_replies;
#[cfg(all(test, feature = "alloc"))]
#[allow(unused)]
mod sock_diag_tests;
mod sock_diag_values;
#[cfg(feature = "std")]
mod sockdiag;
#[cfg(feature = "c")]
#[doc(hidden)]
pub mod sockdiag_c;
#[cfg(feature = "std")]
mod sslist;
#[cfg(feature = "std")]
mod sslist_command_line;
#[cfg(feature = "std")]
mod sslist_facts;
#[cfg(feature = "std")]
mod sslist_lister;
#[cfg(feature = "std")]
mod sslist_texts;

pub use kit::memory::{AllocError, AllocFailed};
pub use kit::smallvec::SmallVec;
pub use netlink_core::*;
pub use netlink_packet_sock_diag::*;
// The types that `inet::nlas::Nla`, `unix::nlas::Nla`, `unix::nlas::UnixDiagName` and their views
// are names for. Without a public path the documentation shows no variants.
pub use sock_diag_attributes::inet::nlas::InetNla;
pub use sock_diag_attributes::unix::nlas::{SocketName, UnixNla};

/// Replies about sockets of any family, with everything in them that is known.
pub mod any {
    pub use crate::sock_diag_any::*;
}

/// What the port leaves raw: all of `struct tcp_info`, more attributes, and constants.
pub mod extras {
    pub use crate::sock_diag_extras::*;
}

/// The records of vsock, netlink, packet and XDP sockets.
pub mod families {
    pub use crate::sock_diag_families::*;
}

/// Filters that the kernel runs on each socket, requests that carry them, and requests of any
/// family.
pub mod filters {
    pub use crate::sock_diag_filters::*;
}

/// The programs of the package.
#[cfg(feature = "std")]
#[doc(hidden)]
pub mod programs {
    pub use crate::sockdiag::main as sockdiag;
    pub use crate::sslist::main as sslist;
}
