#!/usr/bin/env python3
"""Opens sockets on this machine, and records the answers of the kernel to two dump requests.

    bench/dumps.py FOLDER [PAIRS]

Writes FOLDER/unix.pcap and FOLDER/tcp.pcap, which sslist reads. There are PAIRS (default 1,000)
connected pairs of each kind: UNIX sockets without a name, UNIX sockets of which one has a path,
TCP over IPv4, TCP over IPv6. The dumps have all attributes that sock_diag(7) names. Needs no root.
"""
import contextlib
import resource
import socket
import struct
import sys
import tempfile
from pathlib import Path

NETLINK_SOCK_DIAG = 4
SOCK_DIAG_BY_FAMILY = 20
DUMP_REQUEST = 0x301  # NLM_F_REQUEST and NLM_F_DUMP
NLM_F_MULTI = 2
NLMSG_ERROR = 2
NLMSG_DONE = 3
ALL = 0xFFFFFFFF
SEQUENCE = 123456
# Global header of a pcap file of version 2.4 whose packets are netlink messages, LINKTYPE_NETLINK.
GLOBAL_HEADER = struct.pack("<IHHiIII", 0xA1B2C3D4, 2, 4, 0, 0, 262144, 253)
# The cooked header of such a packet: type, 824 (ARPHRD_NETLINK), address, protocol.
COOKED_HEADER = struct.pack(">HH10xH", 4, 824, NETLINK_SOCK_DIAG)


def unix_request():
    """Returns the body of a request of all UNIX sockets: struct unix_diag_req."""
    return struct.pack("<BBHIII8s", socket.AF_UNIX, 0, 0, ALL, 0, 0x3F, bytes(8))


def tcp_request(family):
    """Returns the body of a request of all TCP sockets of a family: struct inet_diag_req_v2."""
    return struct.pack("<BBBBI48s", family, socket.IPPROTO_TCP, 0xFF, 0, ALL, bytes(48))


def message(body, flags=NLM_F_MULTI):
    """Returns a message with this body, by default as in a dump."""
    return struct.pack("<IHHII", 16 + len(body), SOCK_DIAG_BY_FAMILY, flags, SEQUENCE, 0) + body


def answer(sent):
    """Sends a request, and returns the datagrams of the dump."""
    datagrams, kind = [], None
    with socket.socket(socket.AF_NETLINK, socket.SOCK_DGRAM, NETLINK_SOCK_DIAG) as kernel:
        kernel.send(sent)
        while kind != NLMSG_DONE:
            datagrams.append(kernel.recv(1 << 16))
            kind = struct.unpack_from("<H", datagrams[-1], 4)[0]
            if kind == NLMSG_ERROR:
                sys.exit("the kernel rejects a request")
    return datagrams


def record(path, bodies):
    """Writes the requests and their answers to a file."""
    with open(path, "wb") as file:
        file.write(GLOBAL_HEADER)
        for body in bodies:
            for datagram in [message(body, DUMP_REQUEST), *answer(message(body, DUMP_REQUEST))]:
                length = len(COOKED_HEADER) + len(datagram)
                file.write(struct.pack("<IIII", 0, 0, length, length) + COOKED_HEADER + datagram)


def connect(family, address, sockets, count):
    """Opens a listening socket and connected pairs. They are closed by a reset, so that none of
    them is left in TIME-WAIT."""
    listening = sockets.enter_context(socket.socket(family, socket.SOCK_STREAM))
    listening.bind(address)
    listening.listen(16)
    for _ in range(count):
        client = sockets.enter_context(socket.socket(family, socket.SOCK_STREAM))
        client.setsockopt(socket.SOL_SOCKET, socket.SO_LINGER, struct.pack("ii", 1, 0))
        client.connect(listening.getsockname())
        sockets.enter_context(listening.accept()[0])


def main(folder, count="1000"):
    folder, count = Path(folder), int(count)
    folder.mkdir(parents=True, exist_ok=True)
    most = resource.getrlimit(resource.RLIMIT_NOFILE)[1]
    resource.setrlimit(resource.RLIMIT_NOFILE, (most, most))
    with tempfile.TemporaryDirectory() as place, contextlib.ExitStack() as sockets:
        connect(socket.AF_UNIX, f"{place}/server", sockets, count)
        connect(socket.AF_INET, ("127.0.0.1", 0), sockets, count)
        connect(socket.AF_INET6, ("::1", 0), sockets, count)
        for _ in range(count):
            for one in socket.socketpair():
                sockets.enter_context(one)
        record(folder / "unix.pcap", [unix_request()])
        record(folder / "tcp.pcap", [tcp_request(socket.AF_INET), tcp_request(socket.AF_INET6)])


if __name__ == "__main__":
    if not 2 <= len(sys.argv) <= 3:
        print(__doc__, file=sys.stderr)
        sys.exit(2)
    main(*sys.argv[1:])
