//! Answers the lines of the program sockdiag, as docs/LINES.md has them, by the crate
//! `netlink-packet-sock-diag`. Its error codes are incomplete: a line that the crate rejects is
//! answered by `refused` and the text of the error. The crate has no call for a dump, so the loop
//! over the messages of a datagram is written here.

use std::io::{BufWriter, Read, Write, stdin, stdout};
use std::panic::{AssertUnwindSafe, catch_unwind, set_hook};

use netlink_packet_core::{DecodeError, Emitable, NetlinkMessage, NetlinkPayload};
use netlink_packet_core::{Parseable, ParseableParametrized};
use netlink_packet_sock_diag::SockDiagMessage;
use netlink_packet_sock_diag::inet::{InetRequest, InetResponse};
use netlink_packet_sock_diag::unix::nlas::UnixDiagName;
use netlink_packet_sock_diag::unix::{UnixRequest, UnixResponse};

type Message = NetlinkMessage<SockDiagMessage>;

/// `SOCK_DIAG_BY_FAMILY`
const BY_FAMILY: u16 = 20;
/// Length of the header of a message.
const HEADER: usize = 16;
const DIGITS: &[u8; 16] = b"0123456789abcdef";

/// Returns the bytes in hexadecimal, and `-` for none.
fn hex(bytes: &[u8]) -> String {
    let digit = |four: u8| char::from(DIGITS[usize::from(four)]);
    match bytes {
        [] => "-".into(),
        _ => bytes.iter().flat_map(|byte| [digit(byte >> 4), digit(byte & 15)]).collect(),
    }
}

fn digit(character: u8) -> Option<u8> {
    match character {
        b'0'..=b'9' => Some(character - b'0'),
        b'a'..=b'f' => Some(character - b'a' + 10),
        b'A'..=b'F' => Some(character - b'A' + 10),
        _ => None,
    }
}

/// Returns the bytes of an argument, or `None` if it is not in hexadecimal.
fn bytes_of(argument: &[u8]) -> Option<Vec<u8>> {
    match argument {
        b"-" => Some(Vec::new()),
        [] => None,
        _ if argument.len() % 2 != 0 => None,
        _ => argument.chunks(2).map(|two| Some(digit(two[0])? << 4 | digit(two[1])?)).collect(),
    }
}

/// Serializes a value. Returns `None` if the crate panics.
fn written(value: &impl Emitable) -> Option<Vec<u8>> {
    let write = || {
        let mut bytes = vec![0; value.buffer_len()];
        value.emit(&mut bytes);
        bytes
    };
    catch_unwind(AssertUnwindSafe(write)).ok()
}

fn refused(error: &DecodeError) -> String {
    format!("refused {error}")
}

/// Answers a line by the bytes of its value.
fn canonical<T: Emitable>(parsed: Result<T, DecodeError>) -> String {
    match parsed {
        Ok(value) => written(&value).map_or("panic".into(), |bytes| format!("ok {}", hex(&bytes))),
        Err(error) => refused(&error),
    }
}

/// Answers a line by the header and the payload of a message. Only a reply or a request is
/// serialized: other payloads are copied.
fn netlink(bytes: &[u8]) -> String {
    let message = match Message::deserialize(bytes) {
        Ok(message) => message,
        Err(error) => return refused(&error),
    };
    let it = &message.header;
    let numbers =
        [it.length, it.message_type.into(), it.flags.into(), it.sequence_number, it.port_number];
    let numbers = numbers.map(|number| number.to_string()).join(" ");
    let payload = match &message.payload {
        NetlinkPayload::InnerMessage(inner) => written(inner),
        _ => Some(bytes[HEADER..it.length as usize].to_vec()),
    };
    payload.map_or("panic".into(), |payload| format!("ok {numbers} {}", hex(&payload)))
}

fn number(value: Option<u32>) -> String {
    value.map_or("none".into(), |value| value.to_string())
}

fn name(reply: &UnixResponse) -> String {
    match reply.name() {
        None => "none".into(),
        Some(UnixDiagName::Pathname(path)) => format!("path:{}", hex(path.as_encoded_bytes())),
        Some(UnixDiagName::Abstract(name)) => format!("abstract:{}", hex(name)),
    }
}

/// Answers a line by the values of a UNIX reply.
fn view(bytes: &[u8]) -> String {
    let reply = match UnixResponse::parse(bytes) {
        Ok(reply) => reply,
        Err(error) => return refused(&error),
    };
    let pending = match reply.pending_connections() {
        None => "none".into(),
        Some([]) => "-".into(),
        Some(list) => list.iter().map(u32::to_string).collect::<Vec<_>>().join(","),
    };
    let columns = [
        reply.header.kind.to_string(),
        reply.header.state.to_string(),
        reply.header.inode.to_string(),
        number(reply.peer()),
        name(&reply),
        pending,
        number(reply.shutdown_state().map(u32::from)),
        number(reply.number_of_pending_connection()),
        number(reply.max_number_of_pending_connection()),
        number(reply.receive_queue_size()),
        number(reply.send_queue_size()),
        number(reply.max_datagram_size()),
        number(reply.memory_used_for_outgoing_data()),
    ];
    format!("ok {}", columns.join(" "))
}

/// Parses the messages of a datagram, and retains the replies, up to a message that ends the dump.
/// Returns the name of the state that this message leads to, or an empty one if there is none.
fn feed(replies: &mut Vec<SockDiagMessage>, mut bytes: &[u8]) -> Result<&'static str, DecodeError> {
    while !bytes.is_empty() {
        let message = Message::deserialize(bytes)?;
        match message.payload {
            NetlinkPayload::Noop => {}
            NetlinkPayload::InnerMessage(reply) => replies.push(reply),
            NetlinkPayload::Done(_) => return Ok("done"),
            NetlinkPayload::Error(_) => return Ok("error"),
            _ => return Ok("overrun"),
        }
        let length = message.header.length as usize;
        bytes = &bytes[length.next_multiple_of(4).min(bytes.len())..];
    }
    Ok("")
}

/// Answers a line by the replies of a dump.
fn dump(datagrams: &[Vec<u8>]) -> String {
    let (mut replies, mut state) = (Vec::new(), String::from("reading"));
    for datagram in datagrams {
        match feed(&mut replies, datagram) {
            Ok("") => continue,
            Ok(end) => state = end.into(),
            Err(error) => state = format!("failed:{error}"),
        }
        break;
    }
    let mut answer = format!("ok {state} {}", replies.len());
    for reply in &replies {
        let Some(bytes) = written(reply) else { return "panic".into() };
        answer.push(' ');
        answer.push_str(&hex(&bytes));
    }
    answer
}

fn answer(line: &[u8]) -> String {
    let mut words = line.split(|&byte| byte == b' ');
    let command = words.next().unwrap_or_default();
    let arguments: Option<Vec<Vec<u8>>> = words.map(bytes_of).collect();
    match (command, arguments.as_deref()) {
        (b"dump", Some(datagrams @ [_, ..])) => dump(datagrams),
        (b"unixreq", Some([bytes])) => canonical(UnixRequest::parse(bytes)),
        (b"unix", Some([bytes])) => canonical(UnixResponse::parse(bytes)),
        (b"inetreq", Some([bytes])) => canonical(InetRequest::parse(bytes)),
        (b"inet", Some([bytes])) => canonical(InetResponse::parse(bytes)),
        (b"message", Some([bytes])) => {
            canonical(SockDiagMessage::parse_with_param(bytes, BY_FAMILY))
        }
        (b"netlink", Some([bytes])) => netlink(bytes),
        (b"unixview", Some([bytes])) => view(bytes),
        _ => "bad line".into(),
    }
}

fn main() -> std::io::Result<()> {
    set_hook(Box::new(|_| {}));
    let mut input = Vec::new();
    stdin().read_to_end(&mut input)?;
    let mut out = BufWriter::new(stdout().lock());
    for line in input.split_inclusive(|&byte| byte == b'\n') {
        writeln!(out, "{}", answer(line.strip_suffix(b"\n").unwrap_or(line)))?;
    }
    out.flush()
}
