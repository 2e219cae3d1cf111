//! An allocator counts the allocations: views, replies of any family, requests, and owned replies
//! of up to eight attributes that need no memory are parsed and serialized without one.
#![cfg(feature = "alloc")]

use sockdiag::any::{AnyReply, InfoFormat};
use sockdiag::extras::TcpInfoBytes;
use sockdiag::inet::{ExtensionFlags, InetRequest, InetResponse, SocketId, StateFlags};
use sockdiag::unix::nlas::Nla;
use sockdiag::unix::{UnixResponse, UnixResponseView};
use sockdiag::{
    DefaultNla, DumpViews, Emitable, NetlinkHeader, NetlinkMessage, Parseable, SmallVec,
    SockDiagMessage, smallvec,
};
use std::alloc::{GlobalAlloc, Layout, System};
use std::cell::Cell;

struct Counting;

thread_local! {
    /// Number of allocations of this thread.
    static ALLOCATIONS: Cell<usize> = const { Cell::new(0) };
    /// Number of allocations that this thread has freed.
    static FREED: Cell<usize> = const { Cell::new(0) };
}

// SAFETY: the allocator of the system does the work.
unsafe impl GlobalAlloc for Counting {
    unsafe fn alloc(&self, layout: Layout) -> *mut u8 {
        ALLOCATIONS.set(ALLOCATIONS.get() + 1);
        // SAFETY: the caller ensures what `alloc` requires.
        unsafe { System.alloc(layout) }
    }

    unsafe fn dealloc(&self, bytes: *mut u8, layout: Layout) {
        FREED.set(FREED.get() + 1);
        // SAFETY: the caller ensures what `dealloc` requires.
        unsafe { System.dealloc(bytes, layout) }
    }
}

#[global_allocator]
static COUNTING: Counting = Counting;

/// A reply about a UNIX socket with a name and two pending connections.
const UNIX: &[u8] = b"\x01\x01\x0a\0\x0e\x4f\0\0\xa0\x02\0\0\0\0\0\0\
    \x07\0\0\0/a\0\0\x0c\0\x03\0\x01\0\0\0\x02\0\0\0";

/// Returns the number of allocations of a call, and what it returns.
fn count<T>(call: impl FnOnce() -> T) -> (usize, T) {
    let before = ALLOCATIONS.get();
    let result = call();
    (ALLOCATIONS.get() - before, result)
}

/// Returns the number of allocations to parse, clone and serialize a reply of so many attributes,
/// each of them of 8 bytes.
fn owned(count_of: usize, attribute: &[u8; 8]) -> usize {
    let bytes = [&UNIX[..16], &attribute.repeat(count_of)].concat();
    let mut buffer = [0; 2000];
    let (allocations, _) = count(|| {
        let reply = UnixResponse::parse(&bytes[..]).unwrap();
        assert_eq!(reply.clone(), reply);
        reply.emit(&mut buffer);
    });
    assert_eq!(buffer[..bytes.len()], bytes);
    allocations
}

#[test]
fn small_owned_replies_need_no_allocation() {
    let (shutdown, empty_list) = ([5, 0, 6, 0, 1, 0, 0, 0], [4, 0, 3, 0, 4, 0, 99, 0]);
    assert_eq!([0, 1, 8].map(|count| owned(count, &shutdown)), [0; 3]);
    assert_eq!(owned(4, &empty_list), 0);
    // The list of nine attributes, once parsed and once cloned, and each name.
    assert!(owned(9, &shutdown) >= 2);
    assert_eq!(owned(3, &[7, 0, 0, 0, b'/', b'a', 0, 0]), 6);
    let mut inet = vec![2; 72];
    let info = [&[236, 0, 2, 0][..], &[7; 232]].concat();
    (0..8).for_each(|_| inet.extend(&info));
    let (allocations, reply) = count(|| InetResponse::parse(&inet[..]));
    assert_eq!((allocations, reply.unwrap().nlas.len()), (0, 8));
}

#[test]
fn clear_frees_the_items() {
    for count in [2, 8, 9] {
        let mut nlas: SmallVec<Nla, 8> = smallvec![Nla::Other(DefaultNla::new(9, vec![7])); count];
        let before = FREED.get();
        nlas.clear();
        assert_eq!(FREED.get() - before, count);
    }
}

#[test]
fn views_and_requests_need_no_allocation() {
    let message = [&[52, 0, 0, 0, 20, 0, 2, 0, 7, 0, 0, 0, 9, 0, 0, 0], UNIX].concat();
    let datagram = message.repeat(5);
    let mut buffer = [0; 500];
    let (allocations, names) = count(|| {
        let view = UnixResponseView::parse(UNIX).unwrap();
        view.emit(&mut buffer);
        let any = AnyReply::parse(UNIX, 20).unwrap().attributes(InfoFormat::Unknown).count();
        let rtt = TcpInfoBytes::new(&datagram).get(sockdiag::extras::TcpField::Rtt);
        let request = InetRequest {
            family: 2,
            protocol: 6,
            extensions: ExtensionFlags::all(),
            states: StateFlags::every_state(),
            socket_id: SocketId::new_v4(),
        };
        let inner = SockDiagMessage::InetRequest(request);
        let mut message = NetlinkMessage::new(NetlinkHeader::default(), inner.into());
        message.finalize();
        message.serialize(&mut buffer);
        assert!(any == 2 && rtt.is_some() && message.clone() == message);
        DumpViews::new(&datagram).filter(Result::is_ok).count() + view.attributes().count()
    });
    assert_eq!((allocations, names), (0, 7));
}
