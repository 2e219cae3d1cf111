//! Lists the sockets of this machine: one line for each UNIX socket, for each TCP, UDP and MPTCP
//! socket over IPv4 and IPv6, and for each netlink and packet socket.
//!
//! An attribute that is rejected does not hide its socket: the line ends with its kind and its
//! error. So does that of an `INET_DIAG_INFO` of TCP that lacks the round-trip time. A reply whose
//! header is rejected is reported. The exit status is 0 if every reply was listed and
//! the last dump of each request was complete, and else 1. A protocol that the kernel lacks is
//! reported, and is not a failure.

use std::io::{self, Write};
use std::process::ExitCode;

use sockdiag::any::{AnyHeader, AnyNla, AnyNlas, AnyReply, InfoFormat, Rejected};
use sockdiag::extras::{TcpField, TcpInfoBytes};
use sockdiag::families::netlink::{NetlinkRequest, NetlinkResponseHeader};
use sockdiag::families::netlink::{NDIAG_PROTO_ALL, NDIAG_SHOW_GROUPS};
use sockdiag::families::packet::{PacketRequest, PacketResponseHeader, PACKET_SHOW_INFO};
use sockdiag::filters::{RequestAttribute, RequestWithAttributes};
use sockdiag::inet::{ExtensionFlags, InetRequest, InetResponseHeader, SocketId};
use sockdiag::kernel::{Incomplete, Kernel, Reply, Request};
use sockdiag::unix::nlas::NameView;
use sockdiag::unix::{ShowFlags, UnixRequest, UnixResponseHeader};
use sockdiag::{inet, unix, DecodeError, NetlinkHeader};
use sockdiag::{AF_INET, AF_INET6, INET_DIAG_INFO, IPPROTO_TCP, IPPROTO_UDP, SOCK_DIAG_BY_FAMILY};

const ENOENT: i32 = 2;
const EINVAL: i32 = 22;
const IPPROTO_MPTCP: u32 = 262;

/// Returns the end of a line: the kinds of the attributes that are rejected, with their errors.
fn rejected(nlas: AnyNlas<'_>) -> String {
    let text = |it: Rejected<'_>| match it.attribute() {
        Some(nla) => format!(" rejected {} ({})", nla.kind(), it.error()),
        None => format!(" rejected ({})", it.error()),
    };
    nlas.filter_map(Result::err).map(text).collect()
}

/// Returns the line about a UNIX socket.
fn unix_line(it: &UnixResponseHeader, nlas: AnyNlas<'_>) -> String {
    let line = format!("unix type {} state {} inode {}", it.kind, it.state, it.inode);
    // The texts of the first attribute of each kind, in the order of the line.
    let mut texts = [None, None, None, None];
    for (_, nla) in nlas.flatten() {
        let (index, text) = match nla {
            AnyNla::Name(NameView::Pathname(path)) => (0, format!(" {}", path.escape_ascii())),
            AnyNla::Name(NameView::Abstract(name)) => (0, format!(" @{}", name.escape_ascii())),
            AnyNla::Peer(inode) => (1, format!(" peer {inode}")),
            // Of a listening socket: the connections that wait, and how many may.
            AnyNla::QueueLengths(received, sent) => {
                (2, format!(" received {received} sent {sent}"))
            }
            AnyNla::PendingConnections(inodes) => {
                (3, inodes.iter().map(|inode| format!(" pending {inode}")).collect())
            }
            _ => continue,
        };
        texts[index].get_or_insert(text);
    }
    line + &texts.into_iter().flatten().collect::<String>()
}

/// Returns the format of the `INET_DIAG_INFO` of a protocol. Only that of TCP is requested.
fn info_format(protocol: &str) -> InfoFormat {
    if protocol == "tcp" { InfoFormat::Tcp } else { InfoFormat::Unknown }
}

/// Returns the line about an internet socket.
fn inet_line(protocol: &str, header: &InetResponseHeader, reply: &AnyReply<'_>) -> String {
    let id = &header.socket_id;
    let mut line = format!(
        "{protocol} state {} {} {} {} {} uid {} inode {}",
        header.state,
        id.source_address,
        id.source_port,
        id.destination_address,
        id.destination_port,
        header.uid,
        header.inode
    );
    let format = info_format(protocol);
    let congestion = |(_, nla)| if let AnyNla::Congestion(name) = nla { Some(name) } else { None };
    if let Some(name) = reply.attributes(format).flatten().find_map(congestion) {
        line += &format!(" {}", name.escape_debug());
    }
    let info = |(_, nla)| if let AnyNla::TcpInfo(info) = nla { Some(info) } else { None };
    let info = reply.attributes(format).flatten().find_map(info);
    line + &info.map(round_trip_time).unwrap_or_default()
}

/// Returns the text about the round-trip time of a TCP connection. Each kernel sends `struct
/// tcp_info` in its own size.
fn round_trip_time(info: TcpInfoBytes<'_>) -> String {
    match info.get(TcpField::Rtt) {
        // Not measured, as of a socket that listens.
        Some(0) => String::new(),
        Some(rtt) => format!(" rtt {rtt}us"),
        None => format!(" rejected {INET_DIAG_INFO} (no round-trip time)"),
    }
}

/// Returns the line about a netlink socket. The kernel lists a socket that is in a multicast group
/// twice, with the same cookie.
fn netlink_line(it: &NetlinkResponseHeader, nlas: AnyNlas<'_>) -> String {
    let mut line =
        format!("netlink protocol {} port {} inode {}", it.protocol, it.port, it.inode);
    // Each group has a bit: group 1 is the lowest bit of the first byte.
    let groups = |(_, nla)| if let AnyNla::Groups(groups) = nla { Some(groups) } else { None };
    let groups = nlas.flatten().find_map(groups).unwrap_or_default();
    let is_member = |group: &usize| groups[(group - 1) / 8] >> ((group - 1) % 8) & 1 != 0;
    for group in (1..=8 * groups.len()).filter(is_member) {
        line += &format!(" group {group}");
    }
    line
}

/// Returns the line about a packet socket. The interface is in an attribute, and not in the header:
/// a reply may lack it.
fn packet_line(header: &PacketResponseHeader, nlas: AnyNlas<'_>) -> String {
    let mut line = format!("packet type {} protocol {}", header.kind, header.protocol);
    let info = |(_, nla)| if let AnyNla::PacketInfo(info) = nla { Some(info) } else { None };
    if let Some(info) = nlas.flatten().find_map(info) {
        line += &format!(" interface {}", info.interface);
    }
    line + &format!(" inode {}", header.inode)
}

/// Returns the line about the socket of a reply.
fn socket_line(protocol: &str, reply: &Reply<'_>) -> Result<String, DecodeError> {
    let reply = reply.any_view()?;
    let nlas = || reply.attributes(info_format(protocol));
    let line = match reply.header() {
        AnyHeader::Unix(header) => unix_line(header, nlas()),
        AnyHeader::Inet(header) => inet_line(protocol, header, &reply),
        AnyHeader::Netlink(header) => netlink_line(header, nlas()),
        AnyHeader::Packet(header) => packet_line(header, nlas()),
        // These are not requested.
        AnyHeader::Vsock(_) | AnyHeader::Xdp(_) => protocol.into(),
    };
    Ok(line + &rejected(nlas()))
}

/// Lists sockets.
struct Lister<W> {
    kernel: Kernel,
    /// Where the lines about sockets are written.
    output: W,
    /// Whether a reply was rejected, or a dump failed or was incomplete at each attempt.
    is_incomplete: bool,
}

impl<W: Write> Lister<W> {
    /// Writes a line for each socket of this machine.
    fn list_all(&mut self) -> io::Result<()> {
        let unix = UnixRequest {
            state_flags: unix::StateFlags::every_state(),
            inode: 0,
            show_flags: ShowFlags::NAME | ShowFlags::PEER | ShowFlags::ICONS | ShowFlags::RQLEN,
            cookie: [0xff; 8],
        };
        self.list("unix", &unix)?;
        // The `INET_DIAG_INFO` of MPTCP is another struct.
        let of_tcp = ExtensionFlags::INFO | ExtensionFlags::CONG;
        self.list_inet("tcp", IPPROTO_TCP.into(), of_tcp)?;
        self.list_inet("udp", IPPROTO_UDP.into(), ExtensionFlags::empty())?;
        self.list_inet("mptcp", IPPROTO_MPTCP, ExtensionFlags::empty())?;
        // The protocol 0 selects the sockets of `NETLINK_ROUTE` only.
        let (protocol, show) = (NDIAG_PROTO_ALL, NDIAG_SHOW_GROUPS);
        self.list("netlink", &NetlinkRequest { protocol, inode: 0, show, cookie: 0 })?;
        let (protocol, show) = (0, PACKET_SHOW_INFO);
        self.list("packet", &PacketRequest { protocol, inode: 0, show, cookie: 0 })
    }

    /// Writes a line for each socket of a protocol over IPv4 and IPv6.
    fn list_inet(&mut self, name: &str, number: u32, show: ExtensionFlags) -> io::Result<()> {
        // A protocol above 255 is in an attribute, which kernels without MPTCP ignore. By its low
        // byte, `IPPROTO_TCP`, they would list TCP sockets again. For 0 they answer with `ENOENT`.
        let protocol = u8::try_from(number).unwrap_or(0);
        let attribute = [RequestAttribute::Protocol(number)];
        for (family, socket_id) in [(AF_INET, SocketId::new_v4()), (AF_INET6, SocketId::new_v6())] {
            let states = inet::StateFlags::every_state();
            let request = RequestWithAttributes {
                header: NetlinkHeader { message_type: SOCK_DIAG_BY_FAMILY, ..Default::default() },
                request: InetRequest { family, protocol, extensions: show, states, socket_id },
                attributes: if protocol == 0 { &attribute } else { &[] },
            };
            self.list(name, &request)?;
        }
        Ok(())
    }

    /// Requests sockets, and writes a line for each.
    fn list(&mut self, protocol: &str, request: &impl Request) -> io::Result<()> {
        let (answer, error) = match self.kernel.dump(request) {
            Ok(answer) => (answer, None),
            Err(Incomplete { answer, error }) => (answer, Some(error)),
        };
        for reply in answer.replies() {
            match socket_line(protocol, &reply) {
                Ok(line) => writeln!(self.output, "{line}")?,
                Err(error) => {
                    eprintln!("list_sockets: {protocol}: invalid reply: {error}");
                    self.is_incomplete = true;
                }
            }
        }
        if let Some(error) = error {
            eprintln!("list_sockets: {protocol}: {error}");
            // A kernel that lacks the protocol or the family sends one of these.
            self.is_incomplete |= !matches!(error.raw_os_error(), Some(ENOENT | EINVAL));
        }
        Ok(())
    }
}

fn main() -> ExitCode {
    let output = io::BufWriter::new(io::stdout().lock());
    let mut lister = Lister { kernel: Kernel::new(), output, is_incomplete: false };
    match lister.list_all().and_then(|()| lister.output.flush()) {
        Ok(()) if lister.is_incomplete => ExitCode::FAILURE,
        Ok(()) => ExitCode::SUCCESS,
        Err(error) => {
            eprintln!("list_sockets: {error}");
            ExitCode::FAILURE
        }
    }
}
