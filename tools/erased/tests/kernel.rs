//! The module `kernel`, with a test double of the kernel, and with the kernel of this machine.

use std::cell::RefCell;
use std::collections::VecDeque;
use std::ffi::c_int;
use std::io::{self, ErrorKind};
use std::os::fd::{AsFd, AsRawFd, FromRawFd, OwnedFd};
use std::process::Command;
use std::rc::Rc;
use std::time::Duration;

use sockdiag::any::{AnyHeader, InfoFormat, Rejected};
use sockdiag::extras::constants::{INET_DIAG_REQ_PROTOCOL, NLM_F_DUMP_INTR, NLM_F_MULTI};
use sockdiag::families::netlink::{NetlinkRequest, NetlinkResponseHeader};
use sockdiag::families::netlink::{NDIAG_PROTO_ALL, NETLINK_DIAG_GROUPS};
use sockdiag::families::packet::PacketRequest;
use sockdiag::families::vsock::VsockRequest;
use sockdiag::filters::{RequestAttribute, RequestWithAttributes};
use sockdiag::inet::{ExtensionFlags, InetRequest, SocketId};
use sockdiag::kernel::{Answer, Connection, Incomplete, Kernel, Request, Socket};
use sockdiag::kernel::ATTEMPTS;
use sockdiag::unix::nlas::NameView;
use sockdiag::unix::{ShowFlags, UnixRequest, UnixResponse, UnixResponseHeader};
use sockdiag::*;

const ENOENT: i32 = 2;
const EINTR: i32 = 4;
const EPROTO: i32 = 71;
const EMSGSIZE: i32 = 90;
const ENOBUFS: i32 = 105;
const EOPNOTSUPP: i32 = 95;
/// Port id of the sockets of the test double.
const PORT: u32 = 9;
/// A reply about a listening UNIX socket, without attributes.
const UNIX: [u8; 16] = [1, 1, 10, 0, 78, 0, 0, 0, 1, 2, 3, 4, 5, 6, 7, 8];

/// A message of the test double. The last two fields are added to the numbers of the answer.
#[derive(Clone)]
struct Message {
    message_type: u16,
    flags: u16,
    payload: Vec<u8>,
    number: u32,
    port: u32,
}

impl Message {
    /// Returns a message of the answer.
    fn new(message_type: u16, payload: &[u8]) -> Message {
        let (flags, payload) = (NLM_F_MULTI, payload.to_vec());
        Message { message_type, flags, payload, number: 0, port: 0 }
    }

    /// Returns the bytes, with padding, in an answer to the request with this sequence number.
    fn bytes(&self, number: u32) -> Vec<u8> {
        let mut bytes = (16 + self.payload.len() as u32).to_le_bytes().to_vec();
        bytes.extend(self.message_type.to_le_bytes());
        bytes.extend(self.flags.to_le_bytes());
        bytes.extend(number.wrapping_add(self.number).to_le_bytes());
        bytes.extend((PORT + self.port).to_le_bytes());
        bytes.extend(&self.payload);
        bytes.resize(padded(bytes.len()), 0);
        bytes
    }
}

/// Returns a reply.
fn reply(payload: &[u8]) -> Message {
    Message::new(SOCK_DIAG_BY_FAMILY, payload)
}

/// Returns the end of a dump with this error number.
fn done(number: i32) -> Message {
    Message::new(NLMSG_DONE, &number.to_le_bytes())
}

/// Returns an error or an acknowledgement with this error number, of a request without a payload.
fn error(number: i32) -> Message {
    let payload = [&number.to_le_bytes()[..], &[0; 16]].concat();
    Message { flags: 0, ..Message::new(NLMSG_ERROR, &payload) }
}

/// Returns the message with the flag of an interrupted dump.
fn interrupted(message: Message) -> Message {
    Message { flags: message.flags | NLM_F_DUMP_INTR, ..message }
}

/// What a call returns.
#[derive(Clone)]
enum Step {
    /// A datagram with these messages, without this number of bytes at its end.
    Datagram(Vec<Message>, usize),
    /// A datagram that exceeds the buffer by this number of bytes.
    Exceeding(usize),
    /// A failure with this errno.
    Failure(i32),
}

/// Returns the step of a datagram.
fn datagram(messages: &[Message]) -> Step {
    Step::Datagram(messages.to_vec(), 0)
}

/// A socket of the test double.
struct Stub {
    /// The requests that were sent on all sockets.
    requests: Rc<RefCell<Vec<Vec<u8>>>>,
    steps: VecDeque<Step>,
    /// Whether a signal interrupts the next call.
    is_interrupted: bool,
}

impl Stub {
    /// Fails at each second call, by a signal.
    fn signal(&mut self) -> io::Result<()> {
        self.is_interrupted = !self.is_interrupted;
        if self.is_interrupted {
            Ok(())
        } else {
            Err(io::Error::from_raw_os_error(EINTR))
        }
    }
}

impl Connection for Stub {
    fn port_number(&self) -> u32 {
        PORT
    }

    fn send(&mut self, message: &[u8]) -> io::Result<()> {
        self.signal()?;
        self.requests.borrow_mut().push(message.to_vec());
        Ok(())
    }

    fn receive(&mut self, buffer: &mut [u8]) -> io::Result<usize> {
        self.signal()?;
        let number = u32_at(self.requests.borrow().last().unwrap(), 8);
        match self.steps.pop_front().expect("no datagram is left") {
            Step::Failure(number) => Err(io::Error::from_raw_os_error(number)),
            Step::Exceeding(excess) => Ok(buffer.len() + excess),
            Step::Datagram(messages, lack) => {
                let bytes: Vec<u8> = messages.iter().flat_map(|it| it.bytes(number)).collect();
                let length = bytes.len() - lack;
                buffer[..length].copy_from_slice(&bytes[..length]);
                Ok(length)
            }
        }
    }
}

/// Returns the little-endian `u32` at an offset.
fn u32_at(bytes: &[u8], offset: usize) -> u32 {
    u32::from_le_bytes(bytes[offset..offset + 4].try_into().unwrap())
}

/// Returns a request for all UNIX sockets.
fn unix_request() -> UnixRequest {
    UnixRequest {
        state_flags: unix::StateFlags::from_bits_retain(u32::MAX),
        inode: 0,
        show_flags: ShowFlags::NAME,
        cookie: [0xff; 8],
    }
}

/// Returns what a call of a `Kernel` returns, and the requests. Each opened socket has the next
/// steps. All have to be used.
fn answer_by<T>(
    sockets: &[&[Step]],
    call: impl FnOnce(&mut Kernel<&mut dyn FnMut() -> io::Result<Stub>>) -> T,
) -> (T, Vec<Vec<u8>>) {
    let requests = Rc::default();
    let mut left = sockets.iter();
    let mut open = || {
        let steps = left.next().expect("another socket is opened").iter().cloned().collect();
        Ok(Stub { requests: Rc::clone(&requests), steps, is_interrupted: true })
    };
    let result = call(&mut Kernel::with(&mut open));
    assert_eq!(left.len(), 0, "a socket was not opened");
    (result, requests.take())
}

/// Returns the answer to a dump request, as one datagram: the replies, and the end.
fn dump_answer<I: NetlinkSerializable>(request: &[u8], port: u32, replies: Vec<I>) -> Vec<u8> {
    let sequence_number = NetlinkHeader::from_prefix(request).unwrap().sequence_number;
    let (flags, port_number) = (NLM_F_MULTI, port);
    let end = NetlinkPayload::Done(vec![0; 4]);
    let mut datagram = Vec::new();
    for payload in replies.into_iter().map(NetlinkPayload::InnerMessage).chain([end]) {
        let header = NetlinkHeader { flags, sequence_number, port_number, ..Default::default() };
        let mut message = NetlinkMessage::new(header, payload);
        assert!(message.is_writable());
        message.finalize();
        let start = datagram.len();
        datagram.resize(start + padded(message.buffer_len()), 0);
        message.serialize(&mut datagram[start..]);
    }
    datagram
}

/// A reply about a socket of any family, as bytes.
#[derive(PartialEq)]
struct Payload(Vec<u8>);

impl HasCodec for Payload {
    type Param = u16;
}

impl NetlinkSerializable for Payload {
    fn is_writable(&self) -> bool {
        true
    }

    fn message_type(&self) -> u16 {
        SOCK_DIAG_BY_FAMILY
    }

    fn buffer_len(&self) -> usize {
        self.0.len()
    }

    fn serialize(&self, buffer: &mut [u8]) {
        buffer[..self.0.len()].copy_from_slice(&self.0);
    }
}

/// A socket of a test double that writes its answers by `dump_answer`.
struct Writing<F> {
    answer: F,
    datagram: Vec<u8>,
}

impl<F: FnMut(&[u8]) -> Vec<u8>> Connection for Writing<F> {
    fn port_number(&self) -> u32 {
        PORT
    }

    fn send(&mut self, message: &[u8]) -> io::Result<()> {
        self.datagram = (self.answer)(message);
        Ok(())
    }

    fn receive(&mut self, buffer: &mut [u8]) -> io::Result<usize> {
        buffer[..self.datagram.len()].copy_from_slice(&self.datagram);
        Ok(self.datagram.len())
    }
}

/// Returns the payloads of a dump that is answered by this function.
fn written(answer: fn(&[u8]) -> Vec<u8>) -> Vec<Vec<u8>> {
    let open = || Ok(Writing { answer, datagram: Vec::new() });
    let answer = Kernel::with(open).dump(&unix_request()).unwrap();
    payloads(&answer).into_iter().map(<[u8]>::to_vec).collect()
}

/// Requests a dump. Checks that each attempt has another sequence number and otherwise the same
/// request, and the flags of the request.
fn dump(sockets: &[&[Step]]) -> Result<Answer, Incomplete> {
    let (result, requests) = answer_by(sockets, |kernel| kernel.dump(&unix_request()));
    assert_eq!(requests.len(), sockets.len());
    for (number, request) in (1..).zip(&requests) {
        let header = NetlinkHeader::from_prefix(request).unwrap();
        let flags = NLM_F_REQUEST | NLM_F_DUMP | NLM_F_ACK;
        assert_eq!((header.flags, header.length, request.len()), (flags, 40, 40));
        assert_eq!((header.sequence_number, header.port_number), (number, 0));
        assert_eq!(request[16..], requests[0][16..]);
    }
    result
}

/// Returns the payloads of the replies.
fn payloads(answer: &Answer) -> Vec<&[u8]> {
    answer.replies().map(|it| it.payload).collect()
}

/// Asserts that the first attempt is repeated, and that only the replies of the second one are
/// returned.
#[track_caller]
fn assert_repeated(first: &[Step]) {
    let answer = dump(&[first, &[datagram(&[reply(&UNIX[1..]), done(0)])]]).unwrap();
    assert_eq!(payloads(&answer), [&UNIX[1..]]);
}

/// Asserts that a dump fails, with this errno and these replies.
#[track_caller]
fn assert_fails(steps: &[Step], errno: i32, replies: &[&[u8]]) {
    let failure = dump(&[steps]).unwrap_err();
    assert_eq!(failure.error.raw_os_error(), Some(errno));
    assert_eq!(payloads(&failure.answer), replies);
    let text = failure.to_string();
    assert_eq!(io::Error::from(failure).to_string(), text);
}

#[test]
fn replies_of_two_datagrams() {
    let second = [reply(&UNIX[..15]), reply(&UNIX), done(0), reply(&UNIX)];
    let first = [Message::new(NLMSG_NOOP, &UNIX), reply(&UNIX)];
    let answer = dump(&[&[datagram(&first), datagram(&second)]]).unwrap();
    assert_eq!(payloads(&answer), [&UNIX[..], &UNIX[..15], &UNIX]);
    assert!(!answer.is_empty());
    // The end is not among the messages.
    let kinds: Vec<_> = DumpViews::new(answer.as_bytes()).map(|it| it.is_ok()).collect();
    assert_eq!(kinds, [true, false, true]);
    let messages: Vec<_> = answer.messages().map(|it| it.is_ok()).collect();
    assert_eq!(messages, kinds);
    let mut reader = DumpReader::new();
    let error = reader.feed(answer.as_bytes()).unwrap_err();
    assert_eq!(error, DumpError::Fault(answer.messages().nth(1).unwrap().unwrap_err()));
    assert_eq!(reader.messages().len(), 1);
}

#[test]
fn an_answer_of_unix_sockets_is_written() {
    let replies = written(|request| {
        let header = UnixResponseHeader::from_prefix(&UNIX).unwrap();
        let name = unix::nlas::UnixDiagName::Pathname(b"/a".to_vec());
        let nlas = [unix::nlas::Nla::Name(name)].into();
        let named = UnixResponse { header: header.clone(), nlas };
        let bare = UnixResponse { header, nlas: SmallVec::new() };
        let replies = [named, bare].map(|it| SockDiagMessage::UnixResponse(Box::new(it)));
        dump_answer(request, PORT, replies.into())
    });
    assert_eq!(replies, [[&UNIX[..], &[7, 0, 0, 0], b"/a\0\0"].concat(), UNIX.to_vec()]);
}

#[test]
fn an_answer_of_netlink_sockets_is_written() {
    let replies = written(|request| {
        let header = NetlinkResponseHeader { kind: 3, state: 7, ..Default::default() };
        let nlas = [DefaultNla::new(NETLINK_DIAG_GROUPS, vec![2, 0, 0, 0])];
        let mut reply = write_new(&header).unwrap();
        let start = reply.len();
        reply.resize(start + nlas_len(&nlas), 0);
        emit_nlas(&nlas, &mut reply[start..]);
        // The length of the first one is not a multiple of 4.
        dump_answer(request, PORT, vec![Payload(reply[..27].to_vec()), Payload(reply)])
    });
    let header = [&[16, 3, 0, 7][..], &[0; 24]].concat();
    let groups = [8, 0, 1, 0, 2, 0, 0, 0];
    assert_eq!(replies, [header[..27].to_vec(), [&header[..], &groups].concat()]);
}

#[test]
fn an_end_alone() {
    let answer = dump(&[&[datagram(&[done(0)])]]).unwrap();
    assert!(answer.is_empty() && answer.replies().next().is_none());
    // The padding of the last message may be missing.
    let end = Message { payload: vec![0; 5], ..done(0) };
    assert!(dump(&[&[Step::Datagram(vec![end], 3)]]).unwrap().is_empty());
}

#[test]
fn interrupted_dumps_are_repeated() {
    assert_repeated(&[datagram(&[reply(&UNIX)]), datagram(&[interrupted(done(0))])]);
    assert_repeated(&[datagram(&[interrupted(reply(&UNIX)), done(0)])]);
    assert_repeated(&[datagram(&[interrupted(Message::new(NLMSG_NOOP, &[])), done(0)])]);
}

#[test]
fn lost_data_is_requested_again() {
    assert_repeated(&[Step::Failure(ENOBUFS)]);
    assert_repeated(&[datagram(&[reply(&UNIX)]), Step::Failure(ENOBUFS)]);
    assert_repeated(&[datagram(&[reply(&UNIX), Message::new(NLMSG_OVERRUN, &[]), done(0)])]);
}

#[test]
fn framing_errors_are_requested_again() {
    for lack in 1..20 {
        assert_repeated(&[Step::Datagram(vec![reply(&UNIX), done(0)], lack)]);
    }
}

#[test]
fn a_dump_that_is_always_interrupted() {
    let steps = [datagram(&[reply(&UNIX), interrupted(done(0))])];
    let failure = dump(&vec![&steps[..]; ATTEMPTS as usize]).unwrap_err();
    assert_eq!(failure.error.kind(), ErrorKind::Interrupted);
    assert_eq!(payloads(&failure.answer), [UNIX]);
    assert_eq!(failure.to_string(), "interrupted, or data lost, at each attempt");
}

#[test]
fn longer_datagrams_are_errors() {
    for excess in [1, 4, 1 << 20] {
        let steps = [datagram(&[reply(&UNIX)]), Step::Exceeding(excess)];
        assert_fails(&steps, EMSGSIZE, &[&UNIX]);
    }
    // A datagram that fills the buffer is read.
    let filling = Message::new(NLMSG_NOOP, &[0; (1 << 16) + 40 - 16]);
    assert!(dump(&[&[datagram(&[filling]), datagram(&[done(0)])]]).is_ok());
}

#[test]
fn messages_of_other_answers_are_skipped() {
    for (number, port) in [(1, 0), (u32::MAX, 0), (0, 1), (1, 1)] {
        let other = |message| Message { number, port, ..message };
        let steps = [
            datagram(&[other(reply(&UNIX[..4])), other(interrupted(done(0)))]),
            datagram(&[other(error(-ENOENT)), reply(&UNIX), other(done(0))]),
            datagram(&[done(0)]),
        ];
        let (result, _) = answer_by(&[&[datagram(&[done(0)])], &steps], |kernel| {
            kernel.dump(&unix_request()).unwrap();
            kernel.dump(&unix_request())
        });
        assert_eq!(payloads(&result.unwrap()), [UNIX]);
    }
}

#[test]
fn errors_of_the_kernel() {
    assert_fails(&[datagram(&[error(-ENOENT)])], ENOENT, &[]);
    assert_fails(&[datagram(&[reply(&UNIX), done(-1)])], 1, &[&UNIX]);
    assert_fails(&[datagram(&[interrupted(done(-4095))])], 4095, &[]);
    assert_fails(&[Step::Failure(ENOENT)], ENOENT, &[]);
}

#[test]
fn ends_without_a_valid_number() {
    for number in [1, -4096, i32::MIN] {
        assert_fails(&[datagram(&[reply(&UNIX), done(number)])], EPROTO, &[&UNIX]);
    }
    for length in 0..4 {
        for message_type in [NLMSG_DONE, NLMSG_ERROR] {
            let end = Message::new(message_type, &[0; 4][..length]);
            assert_fails(&[datagram(&[end])], EPROTO, &[]);
        }
    }
}

#[test]
fn a_socket_that_cannot_be_opened() {
    let open = || Err::<Stub, _>(io::Error::from_raw_os_error(EPROTO));
    let failure = Kernel::with(open).dump(&unix_request()).unwrap_err();
    assert_eq!(failure.error.raw_os_error(), Some(EPROTO));
}

#[test]
fn single_sockets_are_requested_once() {
    let request = |steps: &[Step]| {
        let (result, requests) = answer_by(&[steps], |kernel| kernel.request(&unix_request()));
        assert_eq!(requests[0][6..8], (NLM_F_REQUEST | NLM_F_ACK).to_le_bytes());
        result
    };
    let answer = request(&[datagram(&[reply(&UNIX)]), datagram(&[error(0)])]).unwrap();
    assert_eq!(payloads(&answer), [UNIX]);
    let failure = request(&[datagram(&[error(-ENOENT)])]).unwrap_err();
    assert_eq!(failure.raw_os_error(), Some(ENOENT));
    let failure = request(&[Step::Failure(ENOBUFS)]).unwrap_err();
    assert_eq!(failure.kind(), ErrorKind::Interrupted);
}

#[test]
fn sockets_are_closed() {
    let destroy = || SockDiagDestroy::new(SockDiagMessage::UnixRequest(unix_request()));
    let acknowledged = [datagram(&[error(0)])];
    let (result, requests) = answer_by(&[&acknowledged], |kernel| kernel.request(&destroy()));
    assert!(result.unwrap().is_empty());
    assert_eq!(requests[0][4..6], SOCK_DESTROY.to_le_bytes());
    let message = NetlinkMessage::new(NetlinkHeader::default(), destroy().into());
    assert_eq!(message.to_message().unwrap(), destroy().to_message().unwrap());
}

#[test]
fn flags_are_added() {
    let header = NetlinkHeader { flags: NLM_F_ECHO, ..Default::default() };
    let message = NetlinkMessage::new(header, SockDiagMessage::UnixRequest(unix_request()).into());
    let acknowledged = [datagram(&[error(0)])];
    let (result, requests) = answer_by(&[&acknowledged], |kernel| kernel.request(&message));
    assert!(result.unwrap().is_empty());
    let flags = NLM_F_REQUEST | NLM_F_ACK | NLM_F_ECHO;
    assert_eq!(requests[0][6..8], flags.to_le_bytes());
}

/// Returns the family, the message type, the length in the header, and the length of a request.
fn parts_of(request: &(impl Request + ?Sized)) -> (u8, u16, usize, usize) {
    let bytes = request.to_message().unwrap();
    let header = NetlinkHeader::from_prefix(&bytes).unwrap();
    (bytes[16], header.message_type, header.length as usize, bytes.len())
}

#[test]
fn requests_of_each_kind() {
    let socket_id = SocketId::new_v6();
    let states = inet::StateFlags::all();
    let extensions = ExtensionFlags::empty();
    let inet = InetRequest { family: AF_INET6, protocol: 6, extensions, states, socket_id };
    let netlink = NetlinkRequest { protocol: NDIAG_PROTO_ALL, inode: 0, show: 0, cookie: 0 };
    let packet = PacketRequest { protocol: 0, inode: 0, show: 0, cookie: 0 };
    let vsock = VsockRequest { states: u32::MAX, cookie: 0 };
    assert_eq!(parts_of(&inet), (10, 20, 72, 72));
    assert_eq!(parts_of(&unix_request()), (1, 20, 40, 40));
    assert_eq!(parts_of(&netlink), (16, 20, 36, 36));
    assert_eq!(parts_of(&packet), (17, 20, 36, 36));
    assert_eq!(parts_of(&vsock), (40, 20, 40, 40));
    let message = SockDiagMessage::InetRequest(inet.clone());
    let bytes = message.to_message().unwrap();
    assert_eq!((parts_of(&bytes), parts_of(&bytes[..])), (parts_of(&inet), parts_of(&inet)));
    let header = NetlinkHeader { flags: 0x123, sequence_number: 4, ..Default::default() };
    let message = NetlinkMessage::new(header, message.into()).to_message().unwrap();
    assert_eq!((message[6..8].to_vec(), u32_at(&message, 8)), (vec![0x23, 1], 4));
    assert_eq!((&message[..6], &message[12..]), (&bytes[..6], &bytes[12..]));
    let header = NetlinkHeader { message_type: SOCK_DIAG_BY_FAMILY, ..Default::default() };
    let attributes = &[RequestAttribute::Protocol(262)];
    let with_attributes = RequestWithAttributes { header, request: inet, attributes };
    assert_eq!(parts_of(&with_attributes), (10, 20, 80, 80));
    assert_eq!(with_attributes.to_message().unwrap()[74], INET_DIAG_REQ_PROTOCOL as u8);
}

#[test]
fn invalid_requests_are_not_sent() {
    let valid = unix_request().to_message().unwrap();
    let mut control = valid.clone();
    control[4] = 15;
    let two = valid.repeat(2);
    for bytes in [&[], &valid[..15], &valid[..39], &control, &two] {
        let (result, _) = answer_by(&[], |kernel| kernel.dump(bytes));
        assert_eq!(result.unwrap_err().error.kind(), ErrorKind::InvalidInput);
    }
}

/// Asserts that a request is not sent, since a length does not fit its field.
#[track_caller]
fn assert_not_writable(request: &impl Request) {
    let (result, _) = answer_by(&[], |kernel| kernel.request(request));
    let failure = result.unwrap_err();
    assert_eq!(failure.kind(), ErrorKind::InvalidInput);
    assert_eq!(failure.to_string(), "a length of the request does not fit its field");
}

#[test]
fn requests_that_are_not_writable() {
    let header = NetlinkHeader { message_type: SOCK_DIAG_BY_FAMILY, ..Default::default() };
    let (states, extensions) = (inet::StateFlags::all(), ExtensionFlags::empty());
    let socket_id = SocketId::new_v4();
    let request = InetRequest { family: 2, protocol: 6, extensions, states, socket_id };
    let attributes = &[RequestAttribute::Program(&[0; 65_532])];
    assert_not_writable(&RequestWithAttributes { header, request, attributes });
    // The name has 65,531 bytes without its terminating NUL.
    let name = unix::nlas::UnixDiagName::Pathname(vec![1; 65_531]);
    let nlas = [unix::nlas::Nla::Name(name)].into();
    let unix = UnixResponse { header: UnixResponseHeader::from_prefix(&UNIX).unwrap(), nlas };
    let message = SockDiagMessage::UnixResponse(Box::new(unix));
    assert_not_writable(&message);
    assert_not_writable(&SockDiagDestroy::new(message.clone()));
    assert_not_writable(&NetlinkMessage::new(header, message.into()));
}

#[test]
fn replies_are_parsed_as_chosen() {
    let netlink = [&[16, 3, 0, 7][..], &[0; 24], &[3, 0, 1, 0]].concat();
    let mut short_memory = UNIX.to_vec();
    short_memory.extend([8, 0, 5, 0, 0, 0, 0, 0]);
    let other_type = Message::new(99, &UNIX);
    let replies = [reply(&UNIX), reply(&netlink), reply(&netlink[..28]), reply(&short_memory)];
    let messages = [&replies[..], &[other_type, reply(&[29, 0]), reply(&[1]), done(0)]].concat();
    let answer = dump(&[&[datagram(&messages)]]).unwrap();
    let results: Vec<_> = answer
        .replies()
        .map(|it| (it.view().is_ok(), it.any_view().is_ok()))
        .collect();
    let (yes, lenient, no) = ((true, true), (false, true), (false, false));
    assert_eq!(results, [yes, lenient, lenient, lenient, no, no, no]);
    let reply = answer.replies().nth(1).unwrap().any_view().unwrap();
    let AnyHeader::Netlink(header) = reply.header() else { panic!() };
    let errors: Vec<_> = reply.attributes(InfoFormat::Unknown).filter_map(Result::err).collect();
    assert!(header.state == 7 && matches!(errors[..], [Rejected::Framing(_)]));
    // The errors that are not about attributes are equal.
    let errors = answer.replies().map(|it| (it.view().err(), it.any_view().err()));
    assert!(errors.skip(4).all(|(strict, any)| any.is_some() && any == strict));
}

/// Returns the reply about the socket with this abstract name.
fn find(answer: &Answer, name: &[u8]) -> Option<(u32, [u8; 8])> {
    answer.replies().find_map(|reply| match reply.view().unwrap() {
        SockDiagView::UnixResponse(reply) => {
            let header = reply.header();
            let is_it = reply.name() == Some(NameView::Abstract(name));
            is_it.then_some((header.inode, header.cookie))
        }
        _ => None,
    })
}

/// Returns whether this machine has sock_diag, which a container may lack. A wrong request may have
/// no answer: the process is ended after a minute.
fn has_sock_diag() -> bool {
    std::thread::spawn(|| {
        std::thread::sleep(Duration::from_secs(60));
        eprintln!("no answer of the kernel in a minute");
        std::process::abort();
    });
    match Kernel::new().dump(&unix_request()) {
        Ok(_) => true,
        Err(failure) => {
            eprintln!("skipped: {failure}");
            false
        }
    }
}

#[test]
fn a_socket_of_this_machine() {
    use std::os::linux::net::SocketAddrExt;
    use std::os::unix::net::{SocketAddr, UnixListener};
    if !has_sock_diag() {
        return;
    }
    let name = format!("sockdiag test {}", std::process::id());
    let address = SocketAddr::from_abstract_name(&name).unwrap();
    let listener = UnixListener::bind_addr(&address).unwrap();
    let mut kernel = Kernel::new();
    let answer = kernel.dump(&unix_request()).unwrap();
    let (inode, cookie) = find(&answer, name.as_bytes()).unwrap();
    let single = UnixRequest { inode, cookie, ..unix_request() };
    let answer = kernel.request(&single).unwrap();
    assert_eq!(answer.replies().count(), 1);
    assert_eq!(find(&answer, name.as_bytes()), Some((inode, cookie)));
    let destroy = SockDiagDestroy::new(SockDiagMessage::UnixRequest(single.clone()));
    let failure = kernel.request(&destroy).unwrap_err();
    assert_eq!(failure.raw_os_error(), Some(EOPNOTSUPP));
    let failure = kernel.dump(&destroy).unwrap_err();
    assert_eq!(failure.error.raw_os_error(), Some(EOPNOTSUPP));
    drop(listener);
    assert_eq!(kernel.request(&single).unwrap_err().raw_os_error(), Some(ENOENT));
}

#[test]
fn a_socket_is_connected_and_is_closed_by_exec() {
    if !has_sock_diag() {
        return;
    }
    let (first, second) = (Socket::open().unwrap(), Socket::open().unwrap());
    assert!(first.port_number() != 0 && first.port_number() != second.port_number());
    assert!(first.as_fd().as_raw_fd() > 2);
    let path = format!("/proc/self/fdinfo/{}", first.as_fd().as_raw_fd());
    let flags = std::fs::read_to_string(path).unwrap();
    let flags = flags.lines().find_map(|line| line.strip_prefix("flags:")).unwrap();
    assert_ne!(u32::from_str_radix(flags.trim(), 8).unwrap() & 0o2000000, 0);
}

const RLIMIT_NOFILE: c_int = 7;

extern "C" {
    fn setrlimit(resource: c_int, limit: *const [u64; 2]) -> c_int;
}

/// Closes a standard descriptor, and tries to open a socket. The next test runs it in another
/// process.
#[test]
#[ignore]
fn without_a_standard_descriptor() {
    let Ok(text) = std::env::var("SOCKDIAG_TEST_CLOSES") else {
        return;
    };
    let fd: i32 = text.parse().unwrap();
    // SAFETY: nothing else in this process needs the descriptor.
    drop(unsafe { OwnedFd::from_raw_fd(fd) });
    // From now on no descriptor can be opened in its place: the error of an attempt is another one.
    let limit = [fd as u64; 2];
    // SAFETY: setrlimit(2) reads `struct rlimit`, which is two of these numbers.
    assert_eq!(unsafe { setrlimit(RLIMIT_NOFILE, &limit) }, 0);
    let error = Socket::open().unwrap_err();
    assert_eq!(error.to_string(), "standard input, output or error is not open");
}

#[test]
fn no_socket_takes_a_standard_descriptor() {
    for fd in 0..3 {
        let status = Command::new(std::env::current_exe().unwrap())
            .args(["--exact", "without_a_standard_descriptor", "--ignored"])
            .env("SOCKDIAG_TEST_CLOSES", fd.to_string())
            .output()
            .unwrap()
            .status;
        assert!(status.success(), "descriptor {fd}");
    }
}
