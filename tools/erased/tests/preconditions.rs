//! Each function with a precondition, called with an argument that breaks it: it panics, or returns
//! as the documentation of the crate says.
#![cfg(feature = "alloc")]

use sockdiag::any::RawTimer;
use sockdiag::extras::{self, AttributeRecord, NestedNlas, VegasInfo};
use sockdiag::fields::{
    array_at, u16s_be_at, u32s_at, u64s_at, write_bytes, write_u16s, write_u16s_be, write_u32s,
    write_u64s,
};
use sockdiag::filters::{Condition, Filter, Host, Prefix, SocketFacts, assemble};
use sockdiag::inet::{self, InetRequest, InetResponse, InetResponseHeader, SocketId, nlas::TcpInfo};
use sockdiag::unix::nlas::{NameView, Nla, NlaView, UnixDiagName, Vfs};
use sockdiag::unix::{UnixRequest, UnixResponse, UnixResponseHeader, UnixResponseView};
use sockdiag::{
    DefaultNla, Emitable, FamilyNla, FamilyView, NetlinkHeader, NetlinkMessage, NlaBuffer,
    NlasIterator, Parseable, Record, ReplyHeader, SmallVec, SockDiagMessage, emit_nla, emit_nlas,
    emit_u32, nla_len, nlas_len, nlas_writable, padded, same_views, smallvec,
};
use std::fmt::Debug;
use std::net::IpAddr;
use std::panic::{AssertUnwindSafe, catch_unwind};

/// The header of a reply about a listening UNIX socket.
const HEADER: [u8; 16] = [1, 1, 10, 0, 14, 79, 0, 0, 160, 2, 0, 0, 0, 0, 0, 0];

/// Returns whether a call panics.
fn panics<T>(call: impl FnOnce() -> T) -> bool {
    catch_unwind(AssertUnwindSafe(call)).is_err()
}

/// Asserts that each call panics, and names the one that does not.
macro_rules! assert_panics {
    ($($call:expr),* $(,)?) => { $(assert!(panics(|| $call), "{}", stringify!($call));)* };
}

/// Returns a reply with one attribute of this kind whose value has this many bytes.
fn reply_with(kind: u16, length: usize) -> UnixResponse {
    UnixResponse {
        header: UnixResponseHeader::parse(&HEADER[..]).unwrap(),
        nlas: smallvec![Nla::Other(DefaultNla::new(kind, vec![7; length]))],
    }
}

fn message(reply: UnixResponse) -> NetlinkMessage<SockDiagMessage> {
    let inner = SockDiagMessage::UnixResponse(Box::new(reply));
    NetlinkMessage::new(NetlinkHeader::default(), inner.into())
}

/// Asserts that a buffer of each length below the value's panics, and that in a longer one only the
/// value's bytes change.
fn assert_needs_its_length<T: Emitable + Debug>(value: &T) {
    let length = value.writable_len().unwrap();
    for short in [0, 1, length / 2, length - 1] {
        assert!(panics(|| value.emit(&mut vec![0; short])), "{short} bytes for {value:?}");
    }
    let mut buffer = vec![0xee; length + 9];
    value.emit(&mut buffer);
    assert_eq!(buffer[length..], [0xee; 9], "{value:?}");
}

#[test]
fn a_short_buffer_panics() {
    let inet = [&[2; 72][..], &[5, 0, 8, 0, 1, 0, 0, 0]].concat();
    let inet = InetResponse::parse(inet.as_slice()).unwrap();
    let unix = reply_with(99, 5);
    assert_needs_its_length(&inet);
    assert_needs_its_length(&inet.header);
    assert_needs_its_length(&inet.header.socket_id);
    assert_needs_its_length(&unix);
    assert_needs_its_length(&unix.header);
    assert_needs_its_length(&unix.nlas[0]);
    assert_needs_its_length(&inet.nlas[0]);
    assert_needs_its_length(&UnixDiagName::Pathname(b"/a".to_vec()));
    assert_needs_its_length(&NameView::Abstract(b"a"));
    assert_needs_its_length(&DefaultNla::new(7, vec![1, 2, 3]));
    assert_needs_its_length(&TcpInfo::parse(&[7; 232]).unwrap());
    assert_needs_its_length(&UnixRequest::parse(&[1; 24][..]).unwrap());
    assert_needs_its_length(&InetRequest::parse(&[2; 56][..]).unwrap());
    assert_needs_its_length(&SockDiagMessage::UnixResponse(Box::new(unix.clone())));
    let mut message = message(unix);
    message.finalize();
    let length = message.header.length as usize;
    assert_panics!(
        message.serialize(&mut []),
        message.serialize(&mut [0; 15]),
        message.serialize(&mut vec![0; length - 1]),
        emit_u32(&mut [0; 3], 1),
    );
}

#[test]
fn a_value_that_does_not_fit_gets_a_small_length_field() {
    let nla = DefaultNla::new(9, vec![7; 65_532]);
    assert!(!nla.is_writable() && nla.writable_len().is_none());
    assert_eq!((nla_len(&nla), nla.buffer_len()), (65_536, 65_536));
    let mut buffer = vec![0xee; 65_536];
    emit_nla(&nla, &mut buffer);
    // 65,536 in 16 bits
    assert_eq!(buffer[..5], [0, 0, 9, 0, 7]);
    assert!(NlaBuffer::new_checked(&buffer).is_err());

    let reply = reply_with(9, 65_532);
    assert!(!reply.is_writable() && !nlas_writable(&reply.nlas));
    assert_eq!((nlas_len(&reply.nlas), reply.buffer_len()), (65_536, 65_552));
    let mut buffer = vec![0; 65_552];
    reply.emit(&mut buffer);
    assert!(UnixResponse::parse(buffer.as_slice()).is_err());
    emit_nlas(&reply.nlas, &mut buffer);

    let mut message = message(reply);
    assert!(!message.is_writable());
    message.finalize();
    assert_eq!((message.header.length, message.buffer_len()), (65_568, 65_568));
    message.serialize(&mut vec![0; 65_568]);
}

#[test]
fn a_length_near_the_end_overflows() {
    assert_eq!(padded(1 << 32), 1 << 32);
    assert_eq!(padded(usize::MAX - 3), usize::MAX - 3);
    // With overflow checks, which this package's profiles turn on.
    assert_panics!(padded(usize::MAX - 2));
}

#[test]
fn a_prefix_with_too_many_bits_overflows() {
    let address = IpAddr::from([127, 0, 0, 1]);
    assert!(Prefix::new(address, 33).is_none());
    let prefix = Some(Prefix { address, bits: 33 });
    let condition = Condition::Source(Host { prefix, port: None });
    let facts = SocketFacts {
        source: address,
        destination: address,
        source_port: 0,
        destination_port: 0,
        interface: 0,
        mark: None,
        cgroup: None,
        is_auto_bound: None,
    };
    assert_panics!(facts.meets(condition));
    // `prefix_len` of `struct inet_diag_hostcond`, after the four bytes of the operation.
    assert_eq!(assemble(&Filter::Condition(condition)).unwrap()[5], 33);
}

#[test]
fn bytes_that_are_no_attribute_panic() {
    for bytes in [&[][..], &[4], &[4, 0, 1], &[3, 0, 1, 0], &[5, 0, 1, 0], &[0; 8]] {
        assert!(NlaBuffer::new_checked(bytes).is_err());
        assert!(panics(|| NlaBuffer::new(bytes)), "{bytes:?}");
        let next = || NlasIterator::new(bytes).next_accepted();
        assert_eq!(panics(next), !bytes.is_empty(), "{bytes:?}");
    }
}

#[test]
fn rejected_names_panic_or_return() {
    assert_panics!(NameView::new(b""));
    assert_eq!(NameView::new(b"/a"), NameView::Pathname(b"/"));
    assert_eq!(NameView::new(b"/\0a\0"), NameView::Pathname(b"/\0a"));
}

/// Calls the functions that need an accepted attribute with an attribute of each kind and length.
fn call_with_rejected<V: Debug, N: FamilyNla>(view: fn(&NlaBuffer<'static>) -> Result<V, bool>) {
    let mut outcomes = [0; 3];
    for (kind, length) in (0..24).flat_map(|kind| (0..40).map(move |length| (kind, length))) {
        let bytes: &'static [u8] = [&[4 + length, 0, kind, 0][..], &vec![0xff; length as usize]]
            .concat()
            .leak();
        let nla = NlaBuffer::new_checked(bytes).unwrap();
        match view(&nla) {
            Ok(_) => outcomes[0] += 1,
            Err(true) => outcomes[1] += 1,
            Err(false) => outcomes[2] += 1,
        }
        let _ = panics(|| N::own_accepted(&nla));
    }
    // Some are accepted, some panic, and some return a wrong value.
    assert!(outcomes.iter().all(|count| *count > 0), "{outcomes:?}");
}

#[test]
fn rejected_attributes_panic_or_return() {
    call_with_rejected::<_, Nla>(|nla| match NlaView::read_view(nla) {
        Ok(accepted) => {
            assert_eq!(NlaView::new(nla), accepted);
            Ok(accepted)
        }
        Err(_) => Err(panics(|| format!("{:?}", NlaView::new(nla)))),
    });
    call_with_rejected::<_, inet::nlas::Nla>(|nla| match inet::nlas::NlaView::read_view(nla) {
        Ok(accepted) => Ok(accepted),
        Err(_) => Err(panics(|| format!("{:?}", inet::nlas::NlaView::new(nla)))),
    });
}

#[test]
fn bytes_with_an_error_panic_or_return() {
    let header = UnixResponseHeader::parse(&HEADER[..]).unwrap();
    // A truncated header, a length below 4, one past the end, and a peer of 1 byte.
    for bytes in [&[5, 0, 6][..], &[3, 0, 6, 0], &[9, 0, 6, 0, 1], &[5, 0, 2, 0, 1, 0, 0, 0]] {
        assert!(UnixResponseHeader::check(bytes).is_err());
        let calls = [
            panics(|| same_views::<NlaView<'_>>(bytes, bytes)),
            panics(|| header.is_same(bytes, &header, bytes)),
            panics(|| header.len_with(bytes)),
            panics(|| header.emit_with(bytes, &mut [0; 99])),
        ];
        assert_eq!(calls, [true; 4], "{bytes:?}");
    }
    let shutdown = [5, 0, 6, 0, 1, 0, 0, 0];
    assert_panics!(header.emit_with(&shutdown, &mut [0; 23]));
    let reply = [&HEADER[..], &shutdown].concat();
    assert_eq!(UnixResponseView::parse(&reply).unwrap().writable_len(), Some(24));
}

/// Asserts that a record panics if there are too few bytes, and if the buffer has another length.
fn assert_record<T: Record<Param = ()> + Debug>(length: usize) {
    let bytes = vec![2; length];
    let record = T::from_fields(&bytes, ()).unwrap();
    assert_eq!(record.size(), length);
    for other in (0..length).chain([length + 1]) {
        if other < length {
            assert!(panics(|| T::from_fields(&bytes[..other], ())), "{record:?} of {other}");
        }
        assert!(panics(|| record.write_fields(&mut vec![0; other])), "{record:?} in {other}");
    }
}

#[test]
fn records_need_their_length() {
    assert_record::<UnixRequest>(24);
    assert_record::<UnixResponseHeader>(16);
    assert_record::<InetRequest>(56);
    assert_record::<InetResponseHeader>(72);
    assert_record::<Vfs>(8);
    assert_record::<TcpInfo>(232);
    assert_record::<inet::nlas::LegacyMemInfo>(16);
    assert_record::<sockdiag::families::packet::PacketResponseHeader>(16);
    let vegas = VegasInfo::from_fields(&[1; 16]);
    assert_panics!(
        SocketId::from_fields(&[0; 47], 2),
        SocketId::new_v4().write_fields(&mut [0; 47]),
        VegasInfo::from_fields(&[1; 15]),
        vegas.write_fields(&mut [0; 15]),
        extras::write_attribute_record(&vegas, &mut [0; 15]),
    );
}

#[test]
fn numbers_need_their_bytes() {
    let bytes = b"\x05\0\x01\0\x07\0\0\0\x04\0\x03\0\x0d\0\x02\x00123456789";
    let nested = NestedNlas::parse(bytes).unwrap();
    assert_eq!((nested.number_of(1, 1), nested.number_of(3, 0)), (Ok(Some(7)), Ok(Some(0))));
    assert!(nested.number_of(1, 9).is_err());
    assert_panics!(
        nested.number_of(2, 9),
        RawTimer::parse(&[0; 55]),
        array_at::<4>(&[0; 4], 1),
        array_at::<4>(&[0; 4], usize::MAX),
        u32s_at::<2>(&[0; 8], 1),
        u64s_at::<1>(&[0; 8], 1),
        u16s_be_at::<2>(&[0; 4], 1),
        write_bytes(&[1], &mut [0; 2]),
        write_u16s(&[1], &mut [0; 3]),
        write_u32s(&[1], &mut [0; 3]),
        write_u64s(&[1], &mut [0; 9]),
        write_u16s_be(&[1], &mut [0; 1]),
    );
    for count in [8, 9] {
        let mut full: SmallVec<Nla, 8> = smallvec![Nla::Peer(1); count];
        while full.len() < full.capacity() {
            full.push_reserved(Nla::Peer(2));
        }
        assert_panics!(full.push_reserved(Nla::Peer(3)));
    }
}
