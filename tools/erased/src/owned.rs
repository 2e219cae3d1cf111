//! `Clone` and `Default` of values that own memory, and `Copy` and `Hash`, as Rust programs expect
//! them. If an allocation fails, a clone panics, or ends the process where it clones a `Vec` or a
//! `String`; `try_clone` returns the error.

use crate::inet::{InetResponse, SocketId};
use crate::netlink_core::{DefaultNla, NetlinkHeader, NetlinkMessage, NetlinkPayload};
use crate::sock_diag_attributes::unix::nlas::SocketName;
use crate::unix::UnixResponse;
use crate::{DumpReader, LossyDump, SockDiagDestroy, SockDiagMessage};
use core::hash::{Hash, Hasher};

impl<B: Clone> Clone for SocketName<B> {
    fn clone(&self) -> Self {
        match self {
            SocketName::Pathname(path) => SocketName::Pathname(path.clone()),
            SocketName::Abstract(address) => SocketName::Abstract(address.clone()),
        }
    }
}

impl<I: Clone, B: Clone> Clone for NetlinkPayload<I, B> {
    fn clone(&self) -> Self {
        match self {
            NetlinkPayload::Done(bytes) => NetlinkPayload::Done(bytes.clone()),
            NetlinkPayload::Error(bytes) => NetlinkPayload::Error(bytes.clone()),
            NetlinkPayload::Noop => NetlinkPayload::Noop,
            NetlinkPayload::Overrun(bytes) => NetlinkPayload::Overrun(bytes.clone()),
            NetlinkPayload::InnerMessage(message) => NetlinkPayload::InnerMessage(message.clone()),
        }
    }
}

impl Copy for NetlinkHeader {}

impl<I: Clone> Clone for NetlinkMessage<I> {
    fn clone(&self) -> Self {
        NetlinkMessage { header: self.header, payload: self.payload.clone() }
    }
}

/// Implements `Clone` by `try_clone`.
macro_rules! clone_or_panic {
    ($($owned:ty),*) => {$(
        impl Clone for $owned {
            fn clone(&self) -> Self {
                self.try_clone().expect("out of memory")
            }
        }
    )*};
}

clone_or_panic!(DefaultNla, UnixResponse, InetResponse, SockDiagMessage, SockDiagDestroy);

impl Default for DumpReader {
    fn default() -> Self {
        DumpReader::new()
    }
}

impl Default for LossyDump {
    fn default() -> Self {
        LossyDump::new()
    }
}

/// Implements `Hash` by these fields, which have to be all fields that `==` compares.
macro_rules! hash_fields {
    ($($owned:ident { $($field:ident),* })*) => {$(
        impl Hash for $owned {
            fn hash<H: Hasher>(&self, state: &mut H) {
                let $owned { $($field),* } = self;
                $($field.hash(state);)*
            }
        }
    )*};
}

hash_fields! {
    NetlinkHeader { length, message_type, flags, sequence_number, port_number }
    SocketId {
        source_port, destination_port, source_address, destination_address, interface_id, cookie
    }
}
