//! Replies about netlink, packet, vsock and XDP sockets, and requests for them. Each field has
//! bytes that no other field has, and is compared with the number at its offset in the kernel's
//! struct.

use sockdiag::any::{AnyHeader, AnyNla, AnyReply, InfoFormat};
use sockdiag::families::netlink::NetlinkRequest;
use sockdiag::families::packet::{PacketRequest, PacketRing};
use sockdiag::families::vsock::VsockRequest;
use sockdiag::families::xdp::XdpRequest;
use sockdiag::inet::nlas::MemInfo;
use sockdiag::{DecodeError, Emitable};

/// Returns this many bytes: `first`, `first + 1`, and so on.
fn counted(first: u8, length: u8) -> Vec<u8> {
    (first..first + length).collect()
}

/// Returns a reply: a header of this length that begins with the family, and one attribute.
fn reply(family: u8, header: u8, kind: u8, value: &[u8]) -> Vec<u8> {
    let mut bytes = [&[family][..], &counted(0x11, header - 1)].concat();
    bytes.extend([4 + value.len() as u8, 0, kind, 0x80]);
    bytes.extend(value);
    bytes
}

/// Returns the header of a reply, and what its only attribute says.
fn parsed(bytes: &[u8]) -> (AnyHeader, AnyNla<'_>) {
    let reply = AnyReply::parse(bytes, 20).unwrap();
    let mut nlas = reply.attributes(InfoFormat::Unknown);
    let (_, nla) = nlas.next().unwrap().unwrap();
    assert!(nlas.next().is_none());
    (reply.header().clone(), nla)
}

/// Compares fields of a struct with the little-endian numbers at these offsets.
macro_rules! assert_fields {
    ($value:expr, $bytes:expr, $($kind:ty => $($field:ident: $offset:expr),*);*) => {{
        $($(
            let bytes = &$bytes[$offset..$offset + size_of::<$kind>()];
            let expected = <$kind>::from_le_bytes(bytes.try_into().unwrap());
            assert_eq!($value.$field, expected, "{}", stringify!($field));
        )*)*
    }};
}

/// Returns the little-endian number at the start of the bytes.
fn number(bytes: &[u8]) -> u32 {
    u32::from_le_bytes(bytes[..4].try_into().unwrap())
}

/// Compares the memory with the value of 36 bytes: `SK_MEMINFO_..` of `linux/sock_diag.h`.
fn assert_memory(memory: MemInfo, value: &[u8]) {
    assert_fields!(memory, value, u32 =>
        receive_queue: 0, receive_queue_max: 4, bottom_send_queues: 8, send_queue_max: 12,
        cache: 16, send_queue: 20, options: 24
    );
    assert_eq!(memory.backlog_queue_length, Some(number(&value[28..])));
    assert_eq!(memory.drops, Some(number(&value[32..])));
}

#[test]
fn netlink_sockets() {
    // `NETLINK_DIAG_MEMINFO`, `NETLINK_DIAG_GROUPS` and `NETLINK_DIAG_FLAGS`
    for (kind, length) in [(0, 36), (1, 36), (4, 4)] {
        let value = counted(0x81, length);
        let bytes = reply(16, 28, kind, &value);
        let (header, nla) = parsed(&bytes);
        let AnyHeader::Netlink(header) = header else { panic!("{header:?}") };
        // `struct netlink_diag_msg`
        assert_fields!(header, bytes, u8 => kind: 1, protocol: 2, state: 3; u32 =>
            port: 4, destination_port: 8, destination_group: 12, inode: 16; u64 => cookie: 20);
        match (kind, nla) {
            (0, AnyNla::Memory(memory)) => assert_memory(memory, &value),
            (1, AnyNla::Groups(groups)) => assert_eq!(groups, value),
            (4, AnyNla::NetlinkFlags(flags)) => assert_eq!(flags, number(&value)),
            other => panic!("{other:?}"),
        }
    }
}

/// Compares a ring with `struct packet_diag_ring`.
fn assert_ring(ring: PacketRing, value: &[u8]) {
    assert_fields!(ring, value, u32 =>
        block_size: 0, blocks: 4, frame_size: 8, frames: 12, retire_timeout: 16, private_size: 20,
        features: 24
    );
}

#[test]
fn packet_sockets() {
    // `PACKET_DIAG_INFO` to `PACKET_DIAG_FILTER`
    for (kind, length) in (0..).zip([24, 44, 28, 28, 4, 4, 36, 16]) {
        let value = counted(0x81, length);
        let bytes = reply(17, 16, kind, &value);
        let (header, nla) = parsed(&bytes);
        let AnyHeader::Packet(header) = header else { panic!("{header:?}") };
        // `struct packet_diag_msg`
        assert_fields!(header, bytes, u8 => kind: 1; u16 => protocol: 2; u32 => inode: 4;
            u64 => cookie: 8);
        match (kind, nla) {
            (0, AnyNla::PacketInfo(info)) => assert_fields!(info, value, u32 =>
                interface: 0, version: 4, reserve: 8, copy_threshold: 12, timestamp: 16, flags: 20
            ),
            (1, AnyNla::Memberships(bytes)) | (7, AnyNla::Filter(bytes)) => {
                assert_eq!(bytes, value)
            }
            (2, AnyNla::ReceiveFrames(ring)) | (3, AnyNla::SendFrames(ring)) => {
                assert_ring(ring, &value)
            }
            (4, AnyNla::Fanout(found)) | (5, AnyNla::Owner(found)) => {
                assert_eq!(found, number(&value))
            }
            (6, AnyNla::Memory(memory)) => assert_memory(memory, &value),
            other => panic!("{other:?}"),
        }
    }
}

#[test]
fn vsock_sockets() {
    let bytes = reply(40, 32, 1, &[]);
    let (header, nla) = parsed(&bytes);
    let AnyHeader::Vsock(header) = header else { panic!("{header:?}") };
    // `struct vsock_diag_msg`
    assert_fields!(header, bytes, u8 => kind: 1, state: 2, shutdown: 3; u32 =>
        source_context: 4, source_port: 8, destination_context: 12, destination_port: 16,
        inode: 20; u64 => cookie: 24);
    let AnyNla::Unknown(nla) = nla else { panic!("{nla:?}") };
    assert_eq!((nla.kind(), nla.value()), (1, &[][..]));
}

#[test]
fn xdp_sockets() {
    // `XDP_DIAG_INFO` to `XDP_DIAG_STATS`
    for (kind, length) in (1..).zip([8, 4, 4, 4, 40, 4, 4, 36, 48]) {
        let value = counted(0x81, length);
        let bytes = reply(44, 16, kind, &value);
        let (header, nla) = parsed(&bytes);
        let AnyHeader::Xdp(header) = header else { panic!("{header:?}") };
        // `struct xdp_diag_msg`
        assert_fields!(header, bytes, u8 => kind: 1; u32 => inode: 4; u64 => cookie: 8);
        match (kind, nla) {
            (1, AnyNla::XdpInfo(info)) => assert_fields!(info, value,
                u32 => interface: 0, queue: 4),
            (2, AnyNla::Owner(found)) => assert_eq!(found, number(&value)),
            (3, AnyNla::ReceiveRing(found)) | (4, AnyNla::SendRing(found)) => {
                assert_eq!(found, number(&value))
            }
            (5, AnyNla::Umem(umem)) => assert_fields!(umem, value,
                u64 => size: 0; u32 => id: 8, pages: 12, chunk_size: 16, headroom: 20,
                interface: 24, queue: 28, flags: 32, references: 36),
            (6, AnyNla::FillRing(found)) | (7, AnyNla::CompletionRing(found)) => {
                assert_eq!(found, number(&value))
            }
            (8, AnyNla::Memory(memory)) => assert_memory(memory, &value),
            (9, AnyNla::Statistics(counters)) => assert_fields!(counters, value, u64 =>
                received_dropped: 0, received_invalid: 8, received_full: 16, fill_ring_empty: 24,
                sent_invalid: 32, send_ring_empty: 40),
            other => panic!("{other:?}"),
        }
    }
}

#[test]
fn attributes_of_one_kind() {
    let other = [8, 0, 4, 0, 5, 6, 7, 8];
    let bytes = [&reply(16, 28, 4, &[1, 2, 3])[..], &[0], &other].concat();
    let reply = AnyReply::parse(&bytes, 20).unwrap();
    let mut nlas = reply.attributes(InfoFormat::Unknown);
    let rejected = nlas.next().unwrap().unwrap_err();
    let error = DecodeError::WrongLength { kind: Some(4), got: 3, need: 4 };
    assert_eq!(rejected.error(), error);
    assert_eq!(rejected.attribute().map(|nla| nla.value()), Some(&[1, 2, 3][..]));
    let (nla, read) = nlas.next().unwrap().unwrap();
    assert_eq!((nla.kind(), nla.value()), (4, &other[4..]));
    assert!(matches!(read, AnyNla::NetlinkFlags(0x08070605)) && nlas.next().is_none());
}

/// Asserts that the request serializes to these little-endian numbers: of 8 bits, of 32, and of 64.
fn assert_request(request: &impl Emitable, bytes: [u8; 4], numbers: &[u32], cookie: u64) {
    let mut expected = bytes.to_vec();
    numbers.iter().for_each(|number| expected.extend(number.to_le_bytes()));
    expected.extend(cookie.to_le_bytes());
    let mut found = vec![0xee; request.writable_len().unwrap()];
    request.emit(&mut found);
    assert_eq!(found, expected);
}

#[test]
fn requests() {
    let (inode, show, states, cookie) = (0x04030201, 0x08070605, 0x0c0b0a09, 0x2827262524232221);
    // `struct netlink_diag_req`, `packet_diag_req` and `xdp_diag_req` of 20 bytes, and
    // `vsock_diag_req` of 24
    let numbers = [inode, show];
    let request = NetlinkRequest { protocol: 255, inode, show, cookie };
    assert_request(&request, [16, 255, 0, 0], &numbers, cookie);
    let request = PacketRequest { protocol: 7, inode, show, cookie };
    assert_request(&request, [17, 7, 0, 0], &numbers, cookie);
    let request = XdpRequest { protocol: 8, inode, show, cookie };
    assert_request(&request, [44, 8, 0, 0], &numbers, cookie);
    assert_request(&VsockRequest { states, cookie }, [40, 0, 0, 0], &[states, 0, 0], cookie);
}
