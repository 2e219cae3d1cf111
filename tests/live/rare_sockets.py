"""Sockets of all families, protocols and states that sock_diag(7) reports, for guest.py.

`open_all` opens them as root in a system of its own. What a kernel does not support is printed, and
left out. The numbers of options are those of the kernel's headers, for which Python has no names.
"""

import ctypes
import os
import socket
import struct
import time
from socket import AF_INET, AF_INET6, AF_UNIX, SOCK_DGRAM, SOCK_RAW, SOCK_SEQPACKET, SOCK_STREAM

AF_VSOCK, AF_XDP, AF_SMC, AF_TIPC = 40, 44, 43, 30
MPTCP, SCTP, DCCP, UDPLITE = 262, 132, 33, 136
SOCK_DCCP, SOCK_PACKET = 6, 10
IP, TCP, IPV6 = 0, 6, 41
SOL_PACKET, SOL_DCCP, SOL_NETLINK, SOL_TLS, SOL_XDP = 263, 269, 270, 282, 283
SO_SNDBUF, SO_RCVBUF, SO_KEEPALIVE, SO_PRIORITY, SO_MARK = 7, 8, 9, 12, 36
SO_BINDTODEVICE, SO_ATTACH_FILTER = 25, 26
TCP_NODELAY, TCP_CORK, TCP_DEFER_ACCEPT, TCP_CONGESTION, TCP_MD5SIG = 1, 3, 9, 13, 14
TCP_REPAIR, TCP_ULP, TCP_MD5SIG_EXT = 19, 31, 32
PACKET_ADD_MEMBERSHIP, PACKET_RX_RING, PACKET_COPY_THRESH, PACKET_AUXDATA = 1, 5, 7, 8
PACKET_ORIGDEV, PACKET_VERSION, PACKET_RESERVE, PACKET_TX_RING, PACKET_LOSS = 9, 10, 12, 13, 14
PACKET_VNET_HDR, PACKET_TIMESTAMP, PACKET_FANOUT = 15, 17, 18
NETLINK_ADD_MEMBERSHIP, NETLINK_FLAGS = 1, (3, 4, 5, 8, 10, 11, 12)
XDP_RX_RING, XDP_TX_RING, XDP_UMEM_REG, XDP_UMEM_FILL_RING, XDP_UMEM_COMPLETION_RING = 2, 3, 4, 5, 6
# An address of another machine on the interface dummy0, and a port where nothing answers.
FAR = (AF_INET, ("10.9.9.9", 80)), (AF_INET6, ("fd00:9::9", 80))
LOCAL = {AF_INET: "127.0.0.1", AF_INET6: "::1"}
# What keeps a socket open.
KEPT = []


def opened(family, kind=SOCK_STREAM, protocol=0, *options):
    """Returns a socket with these options, each of which is tried."""
    made = socket.socket(family, kind, protocol)
    KEPT.append(made)
    for option in options:
        tried(made.setsockopt, *option)
    return made


def tried(function, *arguments):
    """Returns what a function returns, or prints why it fails, and returns None."""
    try:
        return function(*arguments)
    except (OSError, OverflowError) as error:
        name = getattr(function, "__qualname__", function)
        print(f"not supported: {name} {str(arguments)[:60]}: {error}", flush=True)
        return None


def bound(made, address, backlog=None):
    """Binds a socket, has it listen if there is a backlog, and returns it."""
    made.bind(address)
    if backlog is not None:
        made.listen(backlog)
    return made


def pair(family=AF_INET, kind=SOCK_STREAM, protocol=0, *options):
    """Returns a socket, and the accepted one to which it is connected, neither of which blocks."""
    listener = bound(opened(family, kind, protocol, *options), (LOCAL[family], 0), 8)
    client = opened(family, kind, protocol, *options)
    client.connect(listener.getsockname())
    accepted = listener.accept()[0]
    KEPT.append(accepted)
    client.setblocking(False)
    accepted.setblocking(False)
    return client, accepted


def connected(made, address):
    """Connects a socket without waiting for it."""
    made.setblocking(False)
    made.connect_ex(address)
    return made


def fill(made):
    """Sends until the buffers are full."""
    for _ in range(50):
        try:
            made.send(bytes(200_000))
        except BlockingIOError:
            return
        time.sleep(0.001)


def unix_streams():
    listener = bound(opened(AF_UNIX), "/run/listen", 5)
    client = opened(AF_UNIX)
    client.connect("/run/listen")
    accepted = listener.accept()[0]
    KEPT.append(accepted)
    client.send(bytes(700))
    accepted.send(bytes(300))
    for _ in range(3):
        waiting = opened(AF_UNIX)
        waiting.connect("/run/listen")
    waiting.close()
    packets = bound(opened(AF_UNIX, SOCK_SEQPACKET), b"\0seq\0packet", 128)
    client = opened(AF_UNIX, SOCK_SEQPACKET)
    client.connect(b"\0seq\0packet")
    client.send(bytes(100))
    accepted = packets.accept()[0]
    accepted.shutdown(socket.SHUT_WR)
    KEPT.append(accepted)


def unix_names():
    bound(opened(AF_UNIX, SOCK_DGRAM), b"\0dgram")
    client = opened(AF_UNIX, SOCK_DGRAM)
    client.connect(b"\0dgram")
    client.send(bytes(333))
    bound(opened(AF_UNIX, SOCK_DGRAM), b"/run/" + b"n" * 102)
    bound(opened(AF_UNIX), b"\0" + b"\xff" * 107)
    bound(opened(AF_UNIX), "")
    opened(AF_UNIX)
    for kind in (SOCK_STREAM, SOCK_SEQPACKET, SOCK_DGRAM):
        KEPT.extend(socket.socketpair(AF_UNIX, kind))
    KEPT[-2].setsockopt(socket.SOL_SOCKET, SO_SNDBUF, 5000)
    KEPT[-1].setsockopt(socket.SOL_SOCKET, SO_RCVBUF, 7000)
    KEPT[-2].send(bytes(1000))
    KEPT[-3].close()


def of_another_user():
    """Opens sockets as user 1000, in a process that stays."""
    if os.fork() == 0:
        os.setuid(1000)
        bound(opened(AF_UNIX), b"\0user", 1)
        bound(opened(AF_INET), ("127.0.0.1", 4100), 1)
        opened(AF_INET, SOCK_DGRAM)
        time.sleep(1e6)


def congestion(name):
    """Opens a connection with this congestion control, and sends."""
    client, accepted = pair(AF_INET, SOCK_STREAM, 0, (TCP, TCP_CONGESTION, name))
    client.send(bytes(50_000))
    accepted.recv(20_000)
    accepted.send(bytes(500))


def tcp_options():
    client, _ = pair(AF_INET6, SOCK_STREAM, 0, (TCP, TCP_CONGESTION, b"bbr"))
    client.send(bytes(3000))
    for level, option, value in ((1, SO_MARK, 0x1234), (1, SO_PRIORITY, 6), (IPV6, 67, 0x88)):
        client.setsockopt(level, option, value)
    client, accepted = pair()
    for level, option, value in ((1, SO_MARK, 0x5eadbeef), (IP, 1, 0x10), (1, SO_KEEPALIVE, 1),
                                 (TCP, TCP_NODELAY, 1), (TCP, TCP_REPAIR, 1), (TCP, TCP_REPAIR, 0)):
        client.setsockopt(level, option, value)
    accepted.setsockopt(1, SO_PRIORITY, 5)
    accepted.setsockopt(TCP, TCP_CORK, 1)
    accepted.send(bytes(10))
    # The timer of a delayed acknowledgement.
    client, accepted = pair()
    for _ in range(40):
        client.send(bytes(50))
        accepted.recv(50)


def tcp_states():
    """Opens connections in FIN-WAIT-2, CLOSE-WAIT, TIME-WAIT and FIN-WAIT-1, and closed windows."""
    for family in LOCAL:
        pair(family)[0].shutdown(socket.SHUT_WR)
        for end in pair(family):
            end.close()
            time.sleep(0.02)
    for close in (lambda it: None, lambda it: it.shutdown(socket.SHUT_WR), socket.socket.close):
        client, accepted = pair()
        accepted.setsockopt(1, SO_RCVBUF, 2000)
        fill(client)
        close(client)
    for family, address in (*FAR, (AF_INET6, ("fe80::99", 81, 0, socket.if_nametoindex("dummy0")))):
        connected(opened(family), address)


def tcp_listeners():
    bound(opened(AF_INET, SOCK_STREAM, 0, (TCP, TCP_DEFER_ACCEPT, 60)), ("127.0.0.1", 4001), 3)
    connected(opened(AF_INET), ("127.0.0.1", 4001))
    only_six = ((IPV6, 26, 1), (IPV6, 67, 0x20))
    bound(opened(AF_INET6, SOCK_STREAM, 0, *only_six), ("::", 4002), 3)
    bound(opened(AF_INET6), ("::", 4003), 2)
    for _ in range(2):
        opened(AF_INET).connect(("127.0.0.1", 4003))
    bound(opened(AF_INET, SOCK_STREAM, 0, (1, SO_BINDTODEVICE, b"lo")), ("127.0.0.1", 4004), 2)
    # Bound, and neither listening nor connected.
    bound(opened(AF_INET), ("127.0.0.1", 4005))
    bound(opened(AF_INET6), ("::1", 4006))


def tcp_keys():
    """Opens a listener with two MD5 keys, one of which is for a network."""
    keyed = opened(AF_INET)
    for address, flags, prefix in (("10.1.2.3", 0, 0), ("10.2.0.0", 1, 16)):
        end = struct.pack("<HH", AF_INET, 0) + socket.inet_aton(address) + bytes(120)
        key = end + struct.pack("<BBHi80s", flags, prefix, 5, 0, b"12345")
        tried(keyed.setsockopt, TCP, TCP_MD5SIG_EXT if flags else TCP_MD5SIG, key)
    bound(keyed, ("127.0.0.1", 4007), 1)


def tls():
    """Opens connections with kernel TLS, one with keys, the other without."""
    client, _ = pair()
    client.setsockopt(TCP, TCP_ULP, b"tls")
    keys = struct.pack("<HH", 0x303, 51) + bytes(36)
    for direction in (1, 2):
        tried(client.setsockopt, SOL_TLS, direction, keys)
    client.send(bytes(100))
    pair(AF_INET6)[0].setsockopt(TCP, TCP_ULP, b"tls")


def datagrams():
    bound(opened(AF_INET, SOCK_DGRAM), ("127.0.0.1", 5000))
    client = opened(AF_INET, SOCK_DGRAM, 0, (1, SO_MARK, 77), (IP, 1, 0x20))
    client.connect(("127.0.0.1", 5000))
    client.send(bytes(100))
    bound(opened(AF_INET6, SOCK_DGRAM), ("::", 5001))
    client = opened(AF_INET6, SOCK_DGRAM)
    client.connect(("::1", 5001))
    for _ in range(3):
        client.send(bytes(400))
    bound(opened(AF_INET, SOCK_DGRAM), ("224.0.0.5", 5002))
    # Drops.
    bound(opened(AF_INET, SOCK_DGRAM, 0, (1, SO_RCVBUF, 2300)), ("127.0.0.1", 5004))
    client = opened(AF_INET, SOCK_DGRAM)
    for _ in range(20):
        client.sendto(bytes(400), ("127.0.0.1", 5004))
    opened(AF_INET, SOCK_DGRAM, 1)


def raw(family, protocol):
    made = opened(family, SOCK_RAW, protocol)
    if protocol == 47:
        made.setsockopt(1, SO_MARK, 9)
        made.connect(("127.0.0.1", 0))


def udplite():
    bound(opened(AF_INET, SOCK_DGRAM, UDPLITE), ("127.0.0.1", 5003))


def mptcp():
    client, accepted = pair(AF_INET, SOCK_STREAM, MPTCP)
    client.send(bytes(3000))
    time.sleep(0.1)
    accepted.recv(1000)
    pair(AF_INET6, SOCK_STREAM, MPTCP)[1].send(bytes(100))
    pair(AF_INET, SOCK_STREAM, MPTCP)[0].shutdown(socket.SHUT_WR)
    pair(AF_INET, SOCK_STREAM, MPTCP)[0].close()
    listener = bound(opened(AF_INET, SOCK_STREAM, MPTCP), ("0.0.0.0", 4300), 5)
    opened(AF_INET).connect(("127.0.0.1", 4300))
    KEPT.append(listener.accept()[0])


def sctp():
    client, accepted = pair(AF_INET, SOCK_STREAM, SCTP)
    client.send(bytes(1000))
    accepted.send(bytes(100))
    pair(AF_INET6, SOCK_STREAM, SCTP)[0].send(bytes(10))
    bound(opened(AF_INET, SOCK_SEQPACKET, SCTP), ("127.0.0.1", 6000), 5)
    opened(AF_INET, SOCK_SEQPACKET, SCTP).sendto(bytes(100), ("127.0.0.1", 6000))


def dccp():
    service = (SOL_DCCP, 2, socket.htonl(42))
    bound(opened(AF_INET, SOCK_DCCP, DCCP, service), ("127.0.0.1", 6100), 5)
    opened(AF_INET, SOCK_DCCP, DCCP, service).connect(("127.0.0.1", 6100))


def netlink():
    flags = [(SOL_NETLINK, it, 1) for it in NETLINK_FLAGS]
    groups = [(SOL_NETLINK, NETLINK_ADD_MEMBERSHIP, it) for it in (33, 5)]
    bound(opened(socket.AF_NETLINK, SOCK_RAW, 0, *flags), (4242, 0x11)).setsockopt(*groups[0])
    opened(socket.AF_NETLINK, SOCK_RAW, 0, groups[1])
    opened(socket.AF_NETLINK, SOCK_RAW, 16)
    bound(opened(socket.AF_NETLINK, SOCK_DGRAM, 15), (0, 1))
    opened(socket.AF_NETLINK, SOCK_RAW, 4)
    opened(socket.AF_NETLINK, SOCK_RAW, 0).connect((4242, 0))
    # A dump of the routes, which nobody reads.
    opened(socket.AF_NETLINK, SOCK_RAW, 0).send(struct.pack("<IHHII12x", 28, 26, 0x301, 1, 0))


def packet():
    """Opens packet sockets with rings of both versions, a filter, memberships and flags."""
    ring = struct.pack("<7I", 4096 * 4, 4, 2048, 32, 60, 16, 1)
    third = opened(socket.AF_PACKET, SOCK_RAW, socket.htons(3), (SOL_PACKET, PACKET_VERSION, 2),
                   (SOL_PACKET, PACKET_RX_RING, ring))
    third.bind(("lo", 3))
    tried(third.setsockopt, SOL_PACKET, PACKET_FANOUT, 7 | 1 << 16)
    tried(third.setsockopt, SOL_PACKET, PACKET_TIMESTAMP, 1)
    ring = struct.pack("<4I", 4096, 2, 2048, 4)
    filtered = opened(socket.AF_PACKET, SOCK_RAW, socket.htons(0x800), *(
        (SOL_PACKET, *it) for it in ((PACKET_VERSION, 1), (PACKET_RESERVE, 32),
                                     (PACKET_COPY_THRESH, 100), (PACKET_RX_RING, ring),
                                     (PACKET_TX_RING, ring), (PACKET_LOSS, 1))))
    lines = ((0x28, 0, 0, 12), (0x15, 0, 1, 0x800), (6, 0, 0, 0xFFFF), (6, 0, 0, 0))
    program = ctypes.create_string_buffer(b"".join(struct.pack("<HBBI", *it) for it in lines))
    filtered.setsockopt(1, SO_ATTACH_FILTER, struct.pack("<H6xQ", 4, ctypes.addressof(program)))
    members = opened(socket.AF_PACKET, SOCK_DGRAM, socket.htons(0x806))
    for name, kind, address in (("dummy0", 0, b"\1\0\x5e\1\2\3"), ("lo", 1, b"")):
        member = struct.pack("<iHH8s", socket.if_nametoindex(name), kind, len(address), address)
        members.setsockopt(SOL_PACKET, PACKET_ADD_MEMBERSHIP, member)
    members.setsockopt(SOL_PACKET, PACKET_AUXDATA, 1)
    flags = ((SOL_PACKET, PACKET_VNET_HDR, 1), (SOL_PACKET, PACKET_ORIGDEV, 1))
    opened(socket.AF_PACKET, SOCK_RAW, 0, *flags)
    opened(socket.AF_PACKET, SOCK_DGRAM)
    tried(opened, socket.AF_PACKET, SOCK_PACKET, socket.htons(3))


def vsock():
    listener = bound(opened(AF_VSOCK), (socket.VMADDR_CID_ANY, 700), 4)
    for _ in range(2):
        tried(opened(AF_VSOCK).connect, (1, 700))
    listener.settimeout(1)
    accepted = tried(listener.accept)
    KEPT.append(accepted)
    opened(AF_VSOCK)
    tried(opened, AF_VSOCK, SOCK_DGRAM)
    tried(lambda: bound(opened(AF_VSOCK, SOCK_SEQPACKET), (1, 701), 1))


def xdp():
    """Opens XDP sockets with memory and rings, bound by bind(2), which Python lacks for them."""
    system = ctypes.CDLL(None, use_errno=True)
    size = 64 * 4096
    for index, device in enumerate(("lo", "dummy0")):
        memory = ctypes.create_string_buffer(size + 4096)
        start = ctypes.addressof(memory) + 4095 & ~4095
        KEPT.append(memory)
        region = struct.pack("<QQIIII", start, size, 2048 if index else 4096, 64 * index, 0, 0)
        rings = ((XDP_UMEM_REG, region), (XDP_UMEM_FILL_RING, 64), (XDP_UMEM_COMPLETION_RING, 32),
                 (XDP_RX_RING, 128), *[(XDP_TX_RING, 256)] * index)
        made = opened(AF_XDP, SOCK_RAW, 0, *((SOL_XDP, *it) for it in rings))
        address = struct.pack("<HHIII", AF_XDP, 2, socket.if_nametoindex(device), 0, 0)
        if system.bind(made.fileno(), address, len(address)):
            print(f"not supported: bind of an XDP socket: errno {ctypes.get_errno()}")
    opened(AF_XDP, SOCK_RAW)


def other_families():
    tried(opened, AF_TIPC, socket.SOCK_RDM)
    opened(AF_SMC)


def open_all():
    """Opens the sockets."""
    socket.setdefaulttimeout(5)
    for function in (of_another_user, unix_streams, unix_names, tcp_options, tcp_states,
                     tcp_listeners, tcp_keys, tls, datagrams, udplite, mptcp, sctp, dccp, netlink,
                     packet, vsock, xdp, other_families):
        tried(function)
    for name in (b"bbr", b"dctcp", b"vegas", b"reno", b"cubic", b"illinois"):
        tried(congestion, name)
    for family, protocols in ((AF_INET, (1, 255, 47, 253)), (AF_INET6, (58, 255))):
        for protocol in protocols:
            tried(raw, family, protocol)
    time.sleep(0.3)
