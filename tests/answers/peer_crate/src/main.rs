//! Reads replies as hexadecimal digits, a line each, and prints what the crate
//! `netlink-packet-sock-diag` makes of them: values with the names of sslist-json(5), and the bytes
//! that it serializes, with a tab before each. Values of which the crate has no getter are not
//! printed.

use std::fmt::Write;
use std::io::{read_to_string, stdin};
use std::panic::{catch_unwind, set_hook};

use netlink_packet_core::{Emitable, ParseableParametrized};
use netlink_packet_sock_diag::SockDiagMessage;
use netlink_packet_sock_diag::inet::{self, InetResponse, Timer};
use netlink_packet_sock_diag::unix::UnixResponse;
use netlink_packet_sock_diag::unix::nlas::{Nla, UnixDiagName};

/// `SOCK_DIAG_BY_FAMILY`
const BY_FAMILY: u16 = 20;
const AF_UNIX: u8 = 1;

/// Appends fields, each by its name, or by the name before `=`.
macro_rules! add {
    ($out:ident, $group:literal, $value:expr, $($name:literal = $field:ident),*) => {{
        $(write!($out, "\t{}{}={}", $group, $name, $value.$field).unwrap();)*
    }};
    ($out:ident, $group:literal, $value:expr, $($field:ident)*) => {{
        $(write!($out, "\t{}{}={}", $group, stringify!($field), $value.$field).unwrap();)*
    }};
}

fn hex(bytes: &[u8]) -> String {
    bytes.iter().map(|byte| format!("{byte:02x}")).collect()
}

fn bytes_of(digits: &str) -> Option<Vec<u8>> {
    let two = |at| u8::from_str_radix(digits.get(at..at + 2)?, 16).ok();
    (0..digits.len()).step_by(2).map(two).collect()
}

/// Appends a value, if the reply has it.
fn add(out: &mut String, name: &str, value: Option<impl ToString>) {
    if let Some(value) = value {
        write!(out, "\t{name}={}", value.to_string()).unwrap();
    }
}

fn unix_values(reply: &UnixResponse) -> String {
    let mut out = format!("\tfamily={AF_UNIX}");
    add!(out, "", reply.header, "type" = kind, "state" = state, "ino" = inode);
    add(&mut out, "cookie", Some(format!("{:x}", u64::from_le_bytes(reply.header.cookie))));
    add(&mut out, "name_hex", reply.name().map(|name| match name {
        UnixDiagName::Pathname(path) => hex(path.as_encoded_bytes()),
        UnixDiagName::Abstract(name) => hex(&[b"@", &name[..]].concat()),
    }));
    add(&mut out, "peer", reply.peer());
    add(&mut out, "icons", reply.pending_connections().map(|list| format!("{list:?}")));
    add(&mut out, "shutdown", reply.shutdown_state());
    let waiting = reply.number_of_pending_connection();
    add(&mut out, "rqlen.rqueue", reply.receive_queue_size().or(waiting));
    let limit = reply.max_number_of_pending_connection();
    add(&mut out, "rqlen.wqueue", reply.send_queue_size().or(limit));
    add(&mut out, "meminfo.sndbuf", reply.max_datagram_size());
    add(&mut out, "meminfo.wmem_alloc", reply.memory_used_for_outgoing_data());
    let memory = reply.nlas.iter().find_map(|nla| match nla {
        Nla::MemInfo(memory) => Some(memory.so_rcvbuf),
        _ => None,
    });
    add(&mut out, "meminfo.rcvbuf", memory);
    out
}

fn inet_values(reply: &InetResponse) -> String {
    let mut out = String::new();
    add!(out, "", reply.header, family state uid inode);
    add!(out, "", reply.header, "rqueue" = recv_queue, "wqueue" = send_queue);
    let id = &reply.header.socket_id;
    add!(out, "", id, "sport" = source_port, "dport" = destination_port, "src" = source_address,
         "dst" = destination_address, "if" = interface_id);
    add(&mut out, "cookie", Some(format!("{:x}", u64::from_le_bytes(id.cookie))));
    let (timer, expires, retransmits) = match reply.header.timer {
        None => (0, None, None),
        Some(Timer::Retransmit(expires, count)) => (1, Some(expires), Some(count)),
        Some(Timer::KeepAlive(expires)) => (2, Some(expires), None),
        Some(Timer::TimeWait) => (3, None, None),
        Some(Timer::Probe(expires)) => (4, Some(expires), None),
    };
    add(&mut out, "timer", Some(timer));
    add(&mut out, "expires", expires.map(|time| time.as_millis()));
    add(&mut out, "retrans", retransmits);
    for nla in &reply.nlas {
        add_attribute(&mut out, nla);
    }
    out
}

fn add_attribute(out: &mut String, nla: &inet::nlas::Nla) {
    use inet::nlas::Nla::*;
    match nla {
        LegacyMemInfo(it) => add!(out, "meminfo.", it, "rmem" = receive_queue,
            "wmem" = bottom_send_queue, "fmem" = cache, "tmem" = send_queue),
        TcpInfo(it) => {
            add!(out, "info.", it, state ca_state retransmits probes backoff options rto ato
                snd_mss rcv_mss unacked sacked lost retrans fackets last_data_sent last_ack_sent
                last_data_recv last_ack_recv pmtu rcv_ssthresh rtt rttvar snd_ssthresh snd_cwnd
                advmss reordering rcv_rtt rcv_space total_retrans pacing_rate max_pacing_rate
                bytes_acked bytes_received segs_out segs_in notsent_bytes min_rtt data_segs_in
                data_segs_out delivery_rate busy_time rwnd_limited sndbuf_limited delivered
                delivered_ce bytes_sent bytes_retrans dsack_dups reord_seen rcv_ooopack snd_wnd);
        }
        Congestion(name) => add(out, "cong", Some(name)),
        Tos(it) => add(out, "tos", Some(it)),
        Tc(it) => add(out, "tclass", Some(it)),
        MemInfo(it) => add!(out, "skmeminfo.", it, "rmem_alloc" = receive_queue,
            "rcvbuf" = receive_queue_max, "wmem_alloc" = bottom_send_queues,
            "sndbuf" = send_queue_max, "fwd_alloc" = cache, "wmem_queued" = send_queue,
            "optmem" = options, "backlog" = backlog_queue_length, "drops" = drops),
        Shutdown(it) => add(out, "shutdown", Some(it)),
        Protocol(it) => add(out, "protocol", Some(it)),
        SkV6Only(it) => add(out, "skv6only", Some(u8::from(*it))),
        Mark(it) => add(out, "mark", Some(it)),
        ClassId(it) => add(out, "class_id", Some(it)),
        Other(_) => {}
    }
}

fn answer(digits: &str) -> String {
    let bytes = bytes_of(digits).unwrap_or_default();
    let reply = match SockDiagMessage::parse_with_param(&bytes, BY_FAMILY) {
        Ok(reply) => reply,
        Err(error) => return format!("\terror={error}"),
    };
    let mut written = vec![0; reply.buffer_len()];
    reply.emit(&mut written);
    let values = match &reply {
        SockDiagMessage::UnixResponse(it) => unix_values(it),
        SockDiagMessage::InetResponse(it) => inet_values(it),
        _ => return "\terror=a request".into(),
    };
    format!("\tcanonical={}{values}", hex(&written))
}

fn main() -> std::io::Result<()> {
    set_hook(Box::new(|_| {}));
    for digits in read_to_string(stdin())?.lines() {
        println!("{}", catch_unwind(|| answer(digits)).unwrap_or("\tcanonical=panic".into()));
    }
    Ok(())
}
