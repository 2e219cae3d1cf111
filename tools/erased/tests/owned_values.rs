//! What a Rust program expects of values that own memory: `==`, `Debug`, `Clone`, `Hash`, the
//! methods of a list, errors, and threads.
#![cfg(feature = "alloc")]

use sockdiag::any::{AnyNlas, AnyReply, Rejected};
use sockdiag::filters::AssembleError;
use sockdiag::inet::{InetRequest, InetResponse, SocketId};
use sockdiag::unix::nlas::{Nla, UnixDiagName};
use sockdiag::unix::{UnixRequest, UnixResponse};
use sockdiag::{
    AllocError, CanonError, DecodeError, DefaultNla, DumpError, DumpReader, DumpState, DumpViews,
    Emitable, LossyDump, MessageView, NetlinkHeader, NetlinkMessage, NetlinkPayload, NlaBuffer,
    Parseable, SmallVec, SockDiagDestroy, SockDiagMessage, Wire, canonical, smallvec, write_new,
};
use std::collections::HashMap;
use std::error::Error;
use std::fmt::Debug;

/// A reply about a listening UNIX socket, with a path, both queue lengths, and an attribute of an
/// unknown kind.
const UNIX: &[u8] = b"\x01\x01\x0a\0\x0e\x4f\0\0\xa0\x02\0\0\0\0\0\0\
    \x07\0\0\0/a\0\0\x0c\0\x04\0\0\0\0\0\x80\0\0\0\x06\0\x63\0\x07\x08\0\0";

/// A reply about a TCP connection over IPv4 with a keepalive timer, the congestion control, the
/// mark and the directions that are shut down.
fn inet() -> Vec<u8> {
    let mut bytes: Vec<u8> = (0x31..0x31 + 72).collect();
    (bytes[0], bytes[1], bytes[2]) = (2, 1, 2);
    bytes.extend(b"\x0a\0\x04\0cubic\0\0\0\x08\0\x0f\0\x01\x02\x03\x04\x05\0\x08\0\x03\0\0\0");
    bytes
}

/// Changes each bit. Values are equal if and only if their canonical form is equal, and equal
/// values print alike. Asserts how many bits are ignored.
fn compare_with_changed_bits<T>(bytes: &[u8], ignored: usize)
where
    T: Wire + for<'a> Parseable<&'a [u8]> + Debug,
{
    let value = T::parse(bytes).unwrap();
    let form = canonical::<T>(bytes, ()).unwrap();
    let mut found = 0;
    for bit in 0..8 * bytes.len() {
        let mut changed = bytes.to_vec();
        changed[bit / 8] ^= 1 << (bit % 8);
        let Ok(other) = T::parse(&changed) else {
            continue;
        };
        let is_equal = canonical::<T>(&changed, ()).unwrap() == form;
        assert_eq!(other == value, is_equal, "{bit}: {other:?}");
        assert_eq!(format!("{other:?}") == format!("{value:?}"), is_equal, "{bit}: {other:?}");
        found += usize::from(is_equal);
    }
    assert_eq!(found, ignored, "{value:?}");
}

#[test]
fn values_are_equal_up_to_ignored_bits() {
    // The family and the padding in the header, the flag bits of the two known kinds, and the
    // padding of two attributes.
    compare_with_changed_bits::<UnixResponse>(UNIX, 8 + 8 + 4 + 24);
    // The retransmissions of another timer, the bytes after both IPv4 addresses, the flag bits of
    // three known kinds, and the padding of two attributes.
    compare_with_changed_bits::<InetResponse>(&inet(), 8 + 2 * 96 + 6 + 16 + 24);
    // The family, the protocol, the padding, and the undefined states and attributes.
    compare_with_changed_bits::<UnixRequest>(&[1; 24], 8 + 8 + 16 + 30 + 26);
    // The padding, the undefined states, and the bytes after both IPv4 addresses.
    compare_with_changed_bits::<InetRequest>(&[2; 56], 8 + 21 + 2 * 96);
}

/// Returns the message that this reply is in.
fn message(bytes: &[u8]) -> NetlinkMessage<SockDiagMessage> {
    let reply = UnixResponse::parse(bytes).unwrap();
    let mut message = NetlinkMessage::new(
        NetlinkHeader { flags: 2, sequence_number: 7, port_number: 9, ..Default::default() },
        SockDiagMessage::UnixResponse(Box::new(reply)).into(),
    );
    message.finalize();
    message
}

#[test]
fn names_are_cloned() {
    let bytes = b"ab".to_vec();
    for name in [UnixDiagName::Pathname(bytes.clone()), UnixDiagName::Abstract(bytes)] {
        assert_eq!(name.clone(), name);
    }
}

#[test]
fn debug_prints_the_attributes() {
    let text = "NetlinkMessage { header: NetlinkHeader { length: 60, message_type: 20, flags: 2, \
        sequence_number: 7, port_number: 9 }, payload: InnerMessage(UnixResponse(UnixResponse { \
        header: UnixResponseHeader { kind: 1, state: 10, inode: 20238, cookie: [160, 2, 0, 0, 0, \
        0, 0, 0] }, nlas: [Name(Pathname([47, 97])), ReceiveQueueLength(0, 128), \
        Other(DefaultNla { kind: 99, value: [7, 8] })] })) }";
    assert_eq!(format!("{:?}", message(UNIX)), text);
    let lines = format!("{:#?}", InetResponse::parse(&inet()[..]).unwrap());
    let part = "\n    nlas: [\n        Congestion(\n            \"cubic\",";
    assert!(lines.contains(part), "{lines}");
}

#[test]
fn messages_are_compared_cloned_and_read_again() {
    let one = message(UNIX);
    let mut other = one.clone();
    assert_eq!(one, other);
    let mut bytes = vec![0; one.buffer_len()];
    one.serialize(&mut bytes);
    assert_eq!(NetlinkMessage::deserialize(&bytes), Ok(one.clone()));
    // A change of the clone does not change the original.
    let NetlinkPayload::InnerMessage(SockDiagMessage::UnixResponse(reply)) = &mut other.payload
    else {
        panic!("{other:?}");
    };
    reply.nlas[0] = Nla::Name(UnixDiagName::Abstract(vec![1, 2]));
    assert_eq!(reply.name(), Some(&UnixDiagName::Abstract(vec![1, 2])));
    assert_eq!(other.clone(), other);
    assert_ne!(one, other);
    assert_eq!(one, message(UNIX));
    let (header, payload) = one.clone().into_parts();
    assert_eq!(NetlinkMessage::new(header, payload), one);

    let payloads: [NetlinkPayload<SockDiagMessage>; 5] = [
        NetlinkPayload::Noop,
        NetlinkPayload::Done(vec![0; 4]),
        NetlinkPayload::Error(vec![0; 4]),
        NetlinkPayload::Overrun(vec![0; 4]),
        one.payload,
    ];
    for (index, payload) in payloads.iter().enumerate() {
        let clone = payload.clone();
        assert_eq!(payloads.iter().position(|it| *it == clone), Some(index));
    }
    let destroy = SockDiagDestroy::new(SockDiagMessage::InetResponse(Box::new(
        InetResponse::parse(&inet()[..]).unwrap(),
    )));
    assert_eq!(destroy.clone(), destroy);
    assert_eq!(destroy.try_clone(), Ok(destroy));
}

#[test]
fn ids_and_headers_are_keys() {
    let id = SocketId { source_port: 80, cookie: [1, 2, 3, 4, 5, 6, 7, 8], ..SocketId::new_v6() };
    let header = NetlinkHeader { sequence_number: 7, ..Default::default() };
    let copy = header;
    let names = HashMap::from([((id.clone(), header), 1), ((SocketId::new_v4(), header), 2)]);
    assert_eq!(names.get(&(id.clone(), copy)), Some(&1));
    assert_eq!(names.get(&(SocketId { source_port: 81, ..id }, copy)), None);
}

/// Does the same to a list and to a vector, with these random numbers, and compares them.
fn compare_lists(mut random: u64, most: usize) {
    let (mut list, mut vec) = (SmallVec::<Nla, 8>::new(), Vec::new());
    for number in 0..200 {
        random = random.wrapping_mul(0x5851_f42d_4c95_7f2d).wrapping_add(0x1405_7b7e_f767_814f);
        let (choice, index) = (random >> 60, (random >> 32) as usize % (vec.len() + 1));
        let item = || Nla::Other(DefaultNla::new(number, vec![number as u8]));
        match choice {
            0 => assert_eq!(list.pop(), vec.pop()),
            1 if index < vec.len() => assert_eq!(list.remove(index), vec.remove(index)),
            2 => {
                list.truncate(index + 2);
                vec.truncate(index + 2);
            }
            3 => {
                let is_kept = |nla: &mut Nla| matches!(nla, Nla::Other(it) if it.kind() % 3 > 0);
                list.retain(is_kept);
                vec.retain_mut(is_kept);
            }
            4 if index > 2 => {
                list.clear();
                vec.clear();
            }
            5..=7 if vec.len() < most => {
                list.insert(index, item());
                vec.insert(index, item());
            }
            8.. if vec.len() < most => {
                list.push(item());
                vec.push(item());
            }
            _ => {}
        }
        assert_eq!(list.as_slice(), vec);
        assert!(list.capacity() >= 8 && (!list.spilled() || list.capacity() > 8));
    }
    assert_eq!(list.spilled(), most > 8);
    assert_eq!((list.clone(), list.clone().into_vec()), (vec.clone().into(), vec.clone()));
    assert!(list.clone().into_iter().rev().eq(vec.clone().into_iter().rev()));
    assert_eq!(list.clone().into_iter().len(), vec.len());
    assert!(list.iter().eq(&vec) && (&list).into_iter().eq(&vec));
    (&mut list).into_iter().for_each(|nla| *nla = Nla::Shutdown(1));
    let count = vec.len();
    assert_eq!(list, smallvec![Nla::Shutdown(1); count]);
    assert_eq!(format!("{list:?}"), format!("{:?}", list.as_slice()));
}

#[test]
fn a_list_is_a_vector() {
    for seed in 0..50 {
        compare_lists(seed, 8);
        compare_lists(seed, 30);
    }
    assert_eq!(SmallVec::<Nla, 8>::default(), smallvec![]);
    assert_eq!(SmallVec::<Nla, 8>::from([Nla::Peer(1)]), smallvec![Nla::Peer(1)]);
}

#[test]
fn many_attributes_are_cloned() {
    for count in [0, 8, 9, 300] {
        let nlas: SmallVec<Nla, 8> = (0..count).map(Nla::Peer).collect();
        let reply = UnixResponse { nlas, ..UnixResponse::parse(UNIX).unwrap() };
        assert_eq!(reply.clone(), reply);
        assert_eq!(reply.try_clone().as_ref(), Ok(&reply));
        assert_eq!(UnixResponse::parse(&write_new(&reply).unwrap()[..]), Ok(reply));
    }
}

#[test]
fn errors_have_texts() {
    let nla = NlaBuffer::new_checked(&[5, 0, 2, 0x80, 1]).unwrap();
    let rows: [(Box<dyn Error + Send + Sync>, &str); 9] = [
        (Box::new(DecodeError::NotUtf8), "text is not UTF-8"),
        (Box::new(AllocError), "out of memory"),
        (Box::new(CanonError::Refused(DecodeError::NameEmpty)), "name is empty"),
        (Box::new(CanonError::Unwritable), "a length of the value does not fit its field"),
        (Box::new(CanonError::Memory), "out of memory"),
        (Box::new(DumpError::Fault(DecodeError::NameEmpty)), "name is empty"),
        (Box::new(DumpError::Ended), "the dump had ended"),
        (Box::new(Rejected::Framing(DecodeError::NameEmpty)), "name is empty"),
        (Box::new(Rejected::Attribute(nla, DecodeError::Memory)), "attribute 2: out of memory"),
    ];
    for (error, text) in rows {
        assert_eq!(error.to_string(), text);
    }
    fn parse(bytes: &[u8]) -> Result<UnixResponse, Box<dyn Error>> {
        Ok(UnixResponse::parse(bytes)?)
    }
    let error = parse(&[1; 15]).unwrap_err();
    assert!(error.downcast_ref::<DecodeError>().is_some_and(|error| error.number() == 2));
}

#[test]
fn dumps_have_defaults() {
    let (reader, lossy) = (DumpReader::default(), LossyDump::default());
    assert_eq!((reader.state(), lossy.state()), (DumpState::Reading, DumpState::Reading));
    assert!(reader.into_messages().is_empty() && lossy.into_entries().is_empty());
}

/// Compiles only if the types can be sent to other threads and used there.
#[test]
fn values_are_shared_by_threads() {
    fn is_shared<T: Send + Sync + Unpin>() {}
    macro_rules! are_shared {
        ($($kind:ty),* $(,)?) => { $(is_shared::<$kind>();)* };
    }
    are_shared!(
        AllocError, AssembleError, CanonError, DecodeError, DumpError, DumpReader, DumpViews<'_>,
        AnyNlas<'_>, AnyReply<'_>, Rejected<'_>, LossyDump, MessageView<'_>,
        NetlinkMessage<SockDiagMessage>, SockDiagDestroy, SocketId, InetRequest, InetResponse,
        sockdiag::extras::AckView<'_>,
        sockdiag::filters::AnyRequestView<'_>, sockdiag::inet::InetResponseView<'_>,
        sockdiag::inet::StateFlags, sockdiag::inet::nlas::NlaView<'_>,
        sockdiag::unix::ShowFlags, sockdiag::unix::UnixResponseView<'_>,
    );
    let reply = UnixResponse::parse(UNIX).unwrap();
    let clone = reply.clone();
    let length = std::thread::spawn(move || clone.buffer_len()).join().unwrap();
    assert_eq!(length, reply.buffer_len());
}
