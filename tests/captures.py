#!/usr/bin/env python3
"""tests/captures.py SSLIST: compares what the program writes for captures that are made here from
hexadecimal digits. The last line has the number of runs. The status is 1 if something differs.

A table is a function below `@table`. Its rows are what it yields: the capture, the options, what
is shown, and the lines on standard error without the name of the program. What is shown are the
lines after the heading, or members of the first object of --json. Then the status is 0 if there are
no such lines or only notes, and otherwise 1. A further row of a table is a further `yield`.

A capture is made by `listed` of messages, or by `pcap` and `section` of packets. Messages are made
by `reply` and `request`, and lines by `line`.
"""

import json
import struct
import sys
from datetime import datetime, timedelta, timezone

sys.dont_write_bytecode = True
import runs
from runs import HEADING, PCAP, SOCK_DIAG, attributes, listed, message, pcap, with_attributes

ZEROS = "00" * 48


def reply(header, *pairs):
    """Returns the digits of a reply with this header and these attributes."""
    return message(bytes.fromhex(header + attributes(*pairs)), 2, number=7).hex()


def request(body, number=7, kind=20):
    """Returns the digits of a request."""
    return message(bytes.fromhex(body), 0x301, kind, number).hex()


def numbers(*values):
    """Returns the digits of numbers of 32 bits."""
    return struct.pack(f"<{len(values)}I", *values).hex()


def cells(words):
    """Returns the columns of a line of the table, without the details."""
    return "{:5} {:10} {:6} {:6} {:10} {:5} {:30} {}".format(*words.split())


def line(words, details):
    """Returns a line of the table with its details."""
    return f"{cells(words)}\n\t {details}\n"


# A reply about an IPv6 socket in TIME-WAIT. Local: [fe80::1], interface 3, port 22. Peer:
# [2001:db8::ff], port 40000.
INET6_HEADER = (
    "0a060300 00169c40 fe80000000000000 0000000000000001 20010db800000000 00000000000000ff"
    "03000000" + ZEROS[:40] + "e8030000 00000000"
)
INET6 = reply(INET6_HEADER)
INET6_WORDS = "inet6 TIME-WAIT 0 0 0 1000 [fe80::1]%3:22 [2001:db8::ff]:40000"
INET6_LINE = line(INET6_WORDS, "timer:(timewait,0ms,0) sk:0")

# A reply about an IPv4 socket.
INET4 = reply("02010000 00169c40 c0000201" + ZEROS[:24] + "c0000202" + ZEROS[:24] + ZEROS[:48]
              + "e8030000 05000000")
INET4_LINE = line("inet ESTAB 0 0 5 1000 192.0.2.1:22 192.0.2.2:40000", "sk:0")

# A reply about a listening UNIX stream socket with the abstract name `a b\`.
UNIX_HEADER = "01010a00 0e4f0000 a002000000000000"
UNIX_NAME, UNIX_QUEUES = (0, "006120625c"), (4, numbers(2, 128))
UNIX = reply(UNIX_HEADER, UNIX_NAME, UNIX_QUEUES)
UNIX_LINE = line(r"u_str LISTEN 2 128 20238 - @a\x20b\x5c *", "sk:2a0")

# An NLMSG_DONE.
DONE = message(bytes(4), 2, 3, 7).hex()

# A reply about a UNIX socket with only 12 of the 16 bytes of its header.
SHORT = reply("01010a00 0e4f0000 a0020000")

# A reply about a socket of AF_SMC (43), a family that sslist does not know.
OTHER_FAMILY = reply("2b010100 0e4f0000 a002000000000000")

# Requests for UNIX, TCP, MPTCP, netlink and SCTP sockets.
REQUEST = request("01000000 ffffffff 00000000 3f000000 ffffffffffffffff", 1)
TCP_REQUEST = request("02060000 ffffffff" + ZEROS)
MPTCP_REQUEST = request("02ff0000 80040000" + ZEROS + "08000300 06010000")
OTHER_REQUEST = request("10000000 00000000")
SCTP_REQUEST = request("02840000 ffffffff" + ZEROS)

# The header of a reply about an SCTP association, as a kernel sent it. Its attributes are
# INET_DIAG_INFO, _LOCALS, _CONG and _PEERS, in the kernel's order and with the kernel's lengths. A
# reply about the socket has the first two of them. The addresses are 10.0.0.1, fe80::1 with port 7,
# and one of another family, in 128 bytes each.
ASSOCIATION = reply(
    "02030000 b7741770 7f000001" + ZEROS[:24] + "7f000001" + ZEROS[:24] + "01000000 a3000000"
    + ZEROS[:32] + "00000000 0a1a0000"
)
ADDRESSES = (
    "020000000a000001" + "ff" * 120,
    "0a00000700000000fe80" + "00" * 13 + "01" + "00" * 104,
    "0100" + "ff" * 126,
)
ASSOCIATION_ATTRIBUTES = [(2, "01" * 368), (12, ADDRESSES[0]), (4, b"reno\0".hex()),
                          (13, "".join(ADDRESSES))]
LOCALS = [{"family": 2, "port": 0, "addr": "10.0.0.1"}]
PEERS = [*LOCALS, {"family": 10, "port": 7, "addr": "fe80::1"}, {"family": 1, "port": 65535}]

# The names of the states 0 to 8 of an association.
ASSOCIATION_STATES = [
    "CLOSED", "COOKIE_WAIT", "COOKIE_ECHOED", "ESTAB", "SHUTDOWN_PENDING", "SHUTDOWN_SENT",
    "SHUTDOWN_RECEIVED", "ACK_SENT", "UNKNOWN",
]

# The cooked header of a packet of another protocol.
OTHER = "00040338000000000000000000000000"

# File headers in both byte orders, with both magic numbers. One that begins with `a` is
# big-endian.
HEADERS = [
    PCAP,
    "4d3cb2a102000400000000000000000000100000fd000000",
    "a1b23c4d00020004000000000000000000001000000000fd",
    "a1b2c3d400020004000000000000000000001000000000fd",
]

# A file header with a longer limit of packets.
WIDE_HEADER = "d4c3b2a102000400000000000000000000000400fd000000"

# Nine numbers of a socket's memory, its details and its member of JSON.
NINE = numbers(0, 212992, 0, 212992, 0, 0, 0, 0, 0)
MEMORY = "skmem:(r0,rb212992,t0,tb212992,f0,w0,o0,bl0,d0)"
MEMORY_MEMBER = (
    '"meminfo":{"rmem_alloc":0,"rcvbuf":212992,"wmem_alloc":0,"sndbuf":212992,"fwd_alloc":0,'
    '"wmem_queued":0,"optmem":0,"backlog":0,"drops":0}'
)

# Headers of replies about a netlink, a packet and an XDP socket.
NETLINK_HEADER = "10020000 92100000 00000000 00000000 09000000 0100000000000000"
PACKET_HEADER = "11030300 1bb00300 0230000000000000"
XDP_HEADER = "2c030000 07000000 0800000000000000"

# Replies about sockets of other families, each with its lines and with its object in JSON: the
# replies of a kernel about a netlink and a packet socket, and replies about a listening vsock
# socket, an XDP socket and a netlink socket with groups, which were written by hand from the
# kernel's headers.
FAMILIES = [
    (
        reply("10020007" + ZEROS[:24] + "04000000 0300000000000000", (0, NINE), (4, "00000000")),
        line("nl UNCONN 0 0 4 - 0:0 *", f"sk:3 {MEMORY}"),
        '{"netid":"nl","state_name":"UNCONN","family":16,"type":2,"protocol":0,"state":7,'
        '"portid":0,"dst_portid":0,"dst_group":0,"ino":4,"cookie":"3",' + MEMORY_MEMBER
        + ',"flags":0,"other_attributes":[]}',
    ),
    (
        reply(PACKET_HEADER, (0, numbers(1, 0, 0, 0, 0, 1)), (5, "00000000"), (1, ""), (6, NINE)),
        line("p_raw UNCONN 0 0 241691 0 3:1 *",
             f"sk:3002 ver:0 cpy_thresh:0 running uid:0 {MEMORY}"),
        '{"netid":"p_raw","state_name":"UNCONN","family":17,"type":3,"num":3,"ino":241691,'
        '"cookie":"3002","info":{"index":1,"version":0,"reserve":0,"copy_thresh":0,"tstamp":0,'
        '"flags":1},"mclist":[],"uid":0,' + MEMORY_MEMBER + ',"other_attributes":[]}',
    ),
    (
        reply("28010a00 ffffffff d2040000 ffffffff ffffffff 05000000 0900000000000000"),
        line("v_str LISTEN - - 5 - *:1234 *:*", "sk:9"),
        '{"netid":"v_str","state_name":"LISTEN","family":40,"type":1,"state":10,"shutdown":0,'
        '"src_cid":4294967295,"src_port":1234,"dst_cid":4294967295,"dst_port":4294967295,"ino":5,'
        '"cookie":"9","other_attributes":[]}',
    ),
    (
        reply(XDP_HEADER, (1, numbers(2, 1))),
        line("xdp UNCONN - - 7 - 2:1 *", "sk:8"),
        '{"netid":"xdp","state_name":"UNCONN","family":44,"type":3,"ino":7,"cookie":"8",'
        '"info":{"ifindex":2,"queue_id":1},"other_attributes":[]}',
    ),
    (
        reply(NETLINK_HEADER, (1, "1100000002000000")),
        line("nl UNCONN - - 9 - 0:4242 *", "sk:1 groups:1,5,34"),
        '{"netid":"nl","state_name":"UNCONN","family":16,"type":2,"protocol":0,"state":0,'
        '"portid":4242,"dst_portid":0,"dst_group":0,"ino":9,"cookie":"1","groups":[1,5,34],'
        '"other_attributes":[]}',
    ),
]

# Headers of replies about a netlink, a packet and an XDP socket, each with its columns, and with
# attributes. Of each attribute: the type, the digits of the value, the detail, the name of the
# member in JSON and its value.
FAMILY_VALUES = [
    (
        reply(NETLINK_HEADER), cells("nl UNCONN - - 9 - 0:4242 *") + " sk:1",
        [
            (1, "0100000001000080" + "00" * 7 + "80", " groups:1,33,64,128", "groups",
             [1, 33, 64, 128]),
            (1, "", "", "groups", []),
            (1, "00" * 8191 + "80", " groups:65536", "groups", [65536]),
            (4, "3f000000",
             " cb_running pktinfo broadcast_error no_enobufs listen_all_nsid cap_ack", "flags", 63),
            (4, "14000000", " broadcast_error listen_all_nsid", "flags", 20),
            (4, "00000080", "", "flags", 1 << 31),
        ],
    ),
    (
        reply(PACKET_HEADER), cells("p_raw UNCONN - - 241691 - 3:* *") + " sk:3002",
        [
            (2, numbers(16384, 4, 2048, 32, 0, 13, 31),
             " ring_rx(blk_size:16384,blk_nr:4,frm_size:2048,frm_nr:32,tmo:0,features:0x1f)",
             "rx_ring", {"block_size": 16384, "block_nr": 4, "frame_size": 2048, "frame_nr": 32,
                         "retire_tmo": 0, "sizeof_priv": 13, "features": 31}),
            (3, numbers(1, 2, 3, 4, 5, 6, 0) + "ff",
             " ring_tx(blk_size:1,blk_nr:2,frm_size:3,frm_nr:4,tmo:5,features:0x0)",
             "tx_ring", {"block_size": 1, "block_nr": 2, "frame_size": 3, "frame_nr": 4,
                         "retire_tmo": 5, "sizeof_priv": 6, "features": 0}),
            (4, "07000100", " fanout(id:7,type:lb)", "fanout", {"id": 7, "type": 1}),
            (4, "ffff0400", " fanout(id:65535,type:random)", "fanout", {"id": 65535, "type": 4}),
            (4, "00000700", " fanout(id:0,type:0x7)", "fanout", {"id": 0, "type": 7}),
            (1, "", "", "mclist", []),
            (1, "010000000200000003000600" "aabbccddeeff" + "77" * 26
             + "ffffffff0000000000002100" + "88" * 32, "", "mclist",
             [{"index": 1, "count": 2, "type": 3, "alen": 6, "addr": "aabbccddeeff"},
              {"index": (1 << 32) - 1, "count": 0, "type": 0, "alen": 33, "addr": "88" * 32}]),
            (7, "", "", "filter", []),
            (7, "280000000c000000" "1500010200080000" "0600000000000400",
             " bpf filter:0x28 0 0 12,0x15 1 2 2048,0x6 0 0 262144", "filter",
             [{"code": 40, "jt": 0, "jf": 0, "k": 12}, {"code": 21, "jt": 1, "jf": 2, "k": 2048},
              {"code": 6, "jt": 0, "jf": 0, "k": 1 << 18}]),
        ],
    ),
    (
        reply(XDP_HEADER), cells("xdp UNCONN - - 7 - *:* *") + " sk:8",
        [
            (3, "00080000", " rx(entries:2048)", "rx_ring", {"entries": 2048}),
            (4, "01000000", " tx(entries:1)", "tx_ring", {"entries": 1}),
            (5, numbers(0, 1, 2, 3, 4, 5, 6, 7, 3, 8),
             " umem(id:2,size:4294967296,num_pages:3,chunk_size:4,headroom:5,ifindex:6,qid:7,zc:1,"
             "refs:8)",
             "umem", {"id": 2, "size": 1 << 32, "num_pages": 3, "chunk_size": 4, "headroom": 5,
                      "ifindex": 6, "queue_id": 7, "flags": 3, "refs": 8}),
            (6, "02000000", " fr(entries:2)", "umem_fill_ring", {"entries": 2}),
            (7, "03000000", " cr(entries:3)", "umem_completion_ring", {"entries": 3}),
            (9, numbers(1, 0, 2, 0, 3, 0, 4, 0, 5, 0, 6, 0),
             " stats(rx dropped:1,rx invalid:2,rx queue full:3,rx fill ring empty:4,tx invalid:5,"
             "tx ring empty:6)",
             "stats", {"rx_dropped": 1, "rx_invalid": 2, "rx_full": 3, "fill_ring_empty": 4,
                       "tx_invalid": 5, "tx_ring_empty": 6}),
        ],
    ),
]

# Attributes of newer kernels, the last one of which is too short, and a UNIX socket with a user id.
NEWER = [
    reply(INET6_HEADER, (21, "3412000000000000"), (22, "1201"),
          (16, numbers(1000000, 0, 50, 739, 512)), (9, numbers(1, 512, 100, 200)),
          (3, numbers(1, 5, 100, 90)), (22, "01")),
    reply(UNIX_HEADER, UNIX_NAME, UNIX_QUEUES, (7, numbers(1000))),
]
NEWER_LINES = [
    line(INET6_WORDS, "timer:(timewait,0ms,0) sk:0 vegas:(enabled:1,rttcnt:5,rtt:100,minrtt:90) "
         "dctcp:(enabled:1,ce_state:0,alpha:512,ab_ecn:100,ab_tot:200) bbr:(bw:1000000,mrtt:50,"
         "pacing_gain:739,cwnd_gain:512) cgroup:4660 is_icsk mc_loop bind_address_no_port "
         "unread:(22,1,wrong-length)"),
    line(r"u_str LISTEN 2 128 20238 1000 @a\x20b\x5c *", "sk:2a0"),
]

# The first members of the objects of the UNIX and the IPv6 socket.
UNIX_MEMBERS = ('{"netid":"u_str","state_name":"LISTEN","family":1,"type":1,"state":10,"ino":20238,'
                '"cookie":"2a0",')
INET6_MEMBERS = (
    '{"netid":"inet6","state_name":"TIME-WAIT","family":10,"state":6,"timer":3,"retrans":0,'
    '"sport":22,"dport":40000,"src":"fe80::1","dst":"2001:db8::ff","if":3,"cookie":"0",'
    '"expires":0,"rqueue":0,"wqueue":0,"uid":1000,"inode":0,'
)

# A reply about a UNIX socket with three UNIX_DIAG_RQLEN: a short one, 2 and 128, 3 and 4; an
# unknown attribute, and a UNIX_DIAG_UID of three bytes.
REPEATED = reply(UNIX_HEADER, (4, numbers(9)), UNIX_QUEUES, (99, "0102"), (4, numbers(3, 4)),
                 (7, "e80300"))
REPEATED_LINES = line("u_str LISTEN 2 128 20238 - * *", "sk:2a0 unread:(4,4,wrong-length) "
                      "unknown:(99,2) unread:(7,3,wrong-length)")
REPEATED_OBJECT = UNIX_MEMBERS + (
    '"rqlen":{"rqueue":2,"wqueue":128},"other_attributes":[{"kind":4,"length":4,"hex":"09000000",'
    '"error":"wrong-length"},{"kind":99,"length":2,"hex":"0102"},{"kind":7,"length":3,'
    '"hex":"e80300","error":"wrong-length"}]}\n'
)

# A reply with 104 bytes of struct tcp_info, and its lines up to their details.
SHORT_INFO = reply(INET6_HEADER, (
    2, "0000000000079700" + numbers(204000, *[0] * 14, 100, 50, (1 << 31) - 1, 10, 0, 0, 0, 0, 3)))
SHORT_INFO_COLUMNS = INET6_LINE[6:-1] + " "

# A reply about a listening socket whose abstract name is `e` with an accent, a Chinese letter, a
# space, U+202E and a backslash. Its lines with --utf8 and without. The path in the reply NO_UTF8
# is not valid UTF-8.
LETTERS = reply(UNIX_HEADER, (0, "00" + "é漢 \u202e\\".encode().hex()))
LETTERS_LINE = line(r"u_str LISTEN - - 20238 - @é漢\x20\xe2\x80\xae\x5c *", "sk:2a0").replace(
    " *", "*")
LETTERS_ESCAPED = line(r"u_str LISTEN - - 20238 - @\xc3\xa9\xe6\xbc\xa2\x20\xe2\x80\xae\x5c *",
                       "sk:2a0")
NO_UTF8 = reply(UNIX_HEADER, (0, "2fc3a9ff00"))
NO_UTF8_LINE = line(r"u_str LISTEN - - 20238 - /\xc3\xa9\xff *", "sk:2a0")

# Replies with their objects in JSON: a UNIX socket for each form of a name (an abstract name, a
# path, and both if they are not valid UTF-8), an IPv4 and an IPv6 socket, and one with an invalid
# value.
OBJECTS = [
    (UNIX, UNIX_MEMBERS + '"name":{"abstract":"a b\\\\"},"rqlen":{"rqueue":2,"wqueue":128},'
     '"other_attributes":[]}'),
    (reply(UNIX_HEADER, (0, "2fc3a900")),
     UNIX_MEMBERS + '"name":{"path":"/é"},"other_attributes":[]}'),
    (NO_UTF8, UNIX_MEMBERS + '"name":{"path_hex":"2fc3a9ff"},"other_attributes":[]}'),
    (reply(UNIX_HEADER, (0, "00ff")),
     UNIX_MEMBERS + '"name":{"abstract_hex":"ff"},"other_attributes":[]}'),
    (INET4,
     '{"netid":"inet","state_name":"ESTAB","family":2,"state":1,"timer":0,"retrans":0,"sport":22,'
     '"dport":40000,"src":"192.0.2.1","dst":"192.0.2.2","if":0,"cookie":"0","expires":0,'
     '"rqueue":0,"wqueue":0,"uid":1000,"inode":5,"other_attributes":[]}'),
    (INET6, INET6_MEMBERS + '"other_attributes":[]}'),
    (SHORT_INFO, INET6_MEMBERS + '"other_attributes":[{"kind":2,"length":104,"hex":"'
     + SHORT_INFO[-208:] + '","error":"too-short"}]}'),
]

# Errors that are expected at several places.
EMPTY = "the input is empty; the program that wrote it may have failed"
TOO_SHORT = "not a capture (pcap or pcapng, as tcpdump -w writes): it has fewer than 4 bytes"
TRUNCATED = "the capture is truncated; if it is still being written, record it by tcpdump -U"


def recorded(data, length=None):
    """Returns the digits of a packet of a pcap file, which had this length before it was truncated,
    captured 7 seconds and 9 units after 1970."""
    size = len(bytes.fromhex(data))
    return numbers(7, 9, size, length or size) + data


# A file header with the snapshot length 100, and its first 16 bytes.
FRONT = PCAP[:32]
OF_100 = FRONT + "64000000fd000000"

# A section header and the description of a netlink interface of a pcapng file, little-endian and
# big-endian.
STARTS = [
    "0a0d0d0a1c0000004d3c2b1a01000000ffffffffffffffff1c000000"
    "0100000014000000fd0000000000000014000000",
    "0a0d0d0a0000001c1a2b3c4d00010000ffffffffffffffff0000001c"
    "000000010000001400fd00000000000000000014",
]

# A section header, little-endian.
SECTION = STARTS[0][:56]

# An interface whose timestamps have nanoseconds, after a comment of five bytes.
NANOSECONDS = (
    "010000002c000000fd000000000000000100050061620a00ff0000000900010009000000000000002c000000"
)

# The simple form of a packet of another protocol.
SIMPLE = "0300000020000000100000000004033800000000000000000000000020000000"

# A block of a type that nobody has assigned, without a body.
UNKNOWN = "341200800c0000000c000000"

# Invalid blocks after a section header and an interface, each with its error.
INVALID = [
    ("0600000008000000", TRUNCATED),
    ("060000000800000000000000", "invalid length of the block at offset 48"),
    ("060000000d00000000000000", "invalid length of the block at offset 48"),
    ("0600000004000001000000000400000100", "invalid length of the block at offset 48"),
    ("34120080fcffffff0000000000", "invalid length of the block at offset 48"),
    ("060000000c0000000c000000", "invalid length of the block at offset 48"),
    ("0300000010000000000000000c000000", "two different lengths of the block at offset 48"),
    ("0a0d0d0a1c00000000000000", "unknown byte order of the section at offset 48"),
    ("0a0d0d0a1c0000004d3c2b1a02000000ffffffffffffffff1c000000",
     "unsupported pcapng version, expected 1, of the section at offset 48"),
    ("0100000018000000fd000000000000000100010018000000",
     "invalid options of the interface at offset 48"),
    ("010000001c000000fd00000000000000090001000c0000001c000000",
     "unsupported time resolution of the interface at offset 48"),
    (numbers(6, 32, 1, 0, 0, 0, 0, 32), "unknown interface of the packet at offset 48"),
    (numbers(6, 32, 0, 0, 0, 1, 0, 32), "invalid captured length of the packet at offset 48"),
    (numbers(6, 32, 0, 0, 0, 262145, 0, 32), "packet length 262145 exceeds the maximum of 262144"),
    (numbers(6, 32, 0, (1 << 32) - 1, 0, 0, 0, 32),
     "unsupported time (2106 or later) of the packet at offset 48"),
    (numbers(1, 20, 1, 0, 20, 6, 32, 1, 0, 0, 0, 0, 32),
     "unsupported link type 1, expected 253 (netlink), as of nlmon0"),
]

# The time of the packets of `pcap` and `enhanced` in microseconds; of those of `enhanced` in
# nanoseconds.
SEVEN = "1970-01-01T00:00:07.000009000Z"
SEVEN_IN_NANOSECONDS = "1970-01-01T00:00:00.007000009Z"
TABLES = []


class Part(dict):
    """Some members of an object in JSON, in the object's order. A member that is None is absent."""


def table(rows):
    """Adds a table of rows."""
    TABLES.append(rows)
    return rows


def found_members(found, expected):
    """Returns those members of an object that are expected, in its order."""
    return {name: found_members(it, expected[name]) if isinstance(expected[name], Part) else it
            for name, it in found.items() if name in expected}


def without_none(expected):
    return {name: without_none(it) if isinstance(it, Part) else it
            for name, it in expected.items() if it is not None}


def check(sslist, name, given, options, shown, errors=()):
    """Compares a run with a row of a table."""
    words = options.split() + ["--json"] * isinstance(shown, dict)
    status, output, printed = runs.run(sslist, words, given)
    what = f"{name}: sslist {' '.join(words)} of {given.hex()[:400]}"
    expected = "".join(f"sslist: {it}\n" for it in errors)
    failed = any(": note: " not in it for it in errors)
    runs.expect(what, (status, printed.decode()), (int(failed), expected))
    if isinstance(shown, dict):
        found = json.loads(output.partition(b"\n")[0] or b"{}")
        runs.expect(what, json.dumps(found_members(found, shown)), json.dumps(without_none(shown)))
    elif shown is not None:
        heading = "" if {"--json", "-H"} & set(words) else HEADING
        runs.expect(what, output.decode(), heading + "".join(shown))


def digits(*parts):
    """Returns the capture with these digits."""
    return bytes.fromhex("".join(parts))


def columns(netid, line):
    """Returns the columns of a line in the table with another name in the first one."""
    return netid.ljust(6) + line.splitlines()[0][6:]


def block(order, kind, body):
    """Returns a block of a pcapng file. Its body is padded."""
    body += bytes(-len(body) % 4)
    length = struct.pack(order + "I", 12 + len(body))
    return struct.pack(order + "I", kind) + length + body + length


def enhanced(order, *parts, interface=0):
    """Returns an enhanced packet block of an interface, captured 7.000009 seconds after 1970 if its
    timestamps have microseconds."""
    packet = digits(*parts)
    fields = struct.pack(order + "5I", interface, 0, 7_000_009, len(packet), len(packet))
    return block(order, 6, fields + packet)


def section(number, *packets):
    """Returns a section with an interface and these packets. Section 0 is little-endian, and
    section 1 big-endian."""
    return digits(STARTS[number]) + b"".join(enhanced("<>"[number], *it) for it in packets)


def list_heading(time):
    """Returns the lines before a further list of sockets, whose first request has this time."""
    return f"\n==> {time} <==\n{HEADING}"


# Packets of another protocol, with a request, with replies, and with the end of a dump; and the
# lines of their sockets.
MIXED = [
    (OTHER, UNIX), (SOCK_DIAG, REQUEST), (SOCK_DIAG, UNIX), (SOCK_DIAG, OTHER_FAMILY),
    (SOCK_DIAG, INET6), (SOCK_DIAG, DONE),
]
MIXED_LINES = [UNIX_LINE, INET6_LINE]


@table
def captures_of_both_orders():
    """Captures in both byte orders and with both magic numbers, and in pcapng format, by themselves
    and as sections of one file."""
    for header in HEADERS:
        yield pcap(header, *MIXED), "", MIXED_LINES
    for number in (0, 1):
        yield section(number, *MIXED), "", MIXED_LINES
    both = section(0, *MIXED) + section(1, *MIXED)
    yield both, "", [*MIXED_LINES, list_heading(SEVEN), *MIXED_LINES]
    yield pcap(WIDE_HEADER, (SOCK_DIAG, UNIX * 1000)), "", UNIX_LINE * 1000


@table
def each_family():
    """Each family has lines and an object in JSON, with its unknown and its invalid attributes."""
    for given, lines, shown in FAMILIES:
        yield listed(given), "", lines
        yield listed(given), "--json", shown + "\n"
    for given, shown in OBJECTS:
        yield listed(given), "--json", shown + "\n"
    yield listed(*NEWER), "", NEWER_LINES
    uid = listed(reply(XDP_HEADER, (2, numbers(7))))
    yield uid, "-O", cells("xdp UNCONN - - 7 7 *:* *") + " sk:8 uid:7\n"
    yield uid, "", {"uid": 7}


@table
def distinct_numbers():
    """Each number of a reply has its place: a socket whose numbers differ from each other."""
    names = ("rmem_alloc", "rcvbuf", "wmem_alloc", "sndbuf", "fwd_alloc", "wmem_queued", "optmem",
             "backlog", "drops")
    header = ("02010203 00010002 c0000201" + ZEROS[:24] + "c0000202" + ZEROS[:24]
              + numbers(4, 5, 6, 7, 8, 9, 10, 11))
    ip = reply(header, (7, numbers(*range(21, 30))), (1, numbers(31, 32, 33, 34)),
               (4, b"bbr\0".hex()))
    yield listed(ip), "-oemi", line(
        "inet ESTAB 8 9 11 10 192.0.2.1%4:1 192.0.2.2:2",
        "timer:(keepalive,7ms,3) sk:600000005 mem:(r31,w32,f33,t34) cong:bbr "
        "skmem:(r21,rb22,t23,tb24,f25,w26,o27,bl28,d29)")
    yield listed(ip), "", {
        "state": 1, "timer": 2, "retrans": 3, "sport": 1, "dport": 2, "src": "192.0.2.1",
        "dst": "192.0.2.2", "if": 4, "cookie": "600000005", "expires": 7, "rqueue": 8, "wqueue": 9,
        "uid": 10, "inode": 11, "meminfo": {"rmem": 31, "wmem": 32, "fmem": 33, "tmem": 34},
        "cong": "bbr", "skmeminfo": dict(zip(names, range(21, 30)))}
    unix = reply(UNIX_HEADER, (1, numbers(1, 2)), (3, numbers(3, 4)), (5, numbers(*range(5, 14))))
    yield listed(unix), "-oem", line(
        "u_str LISTEN - - 20238 - * *",
        "sk:2a0 vfs:(1,2) pending:3 pending:4 skmem:(r5,rb6,t7,tb8,f9,w10,o11,bl12,d13)")
    yield listed(unix), "", {"vfs": {"ino": 1, "dev": 2}, "icons": [3, 4],
                             "meminfo": dict(zip(names, range(5, 14)))}


@table
def values_of_other_families():
    """Groups, flags, rings, fanout groups, memory and counters of netlink, packet and XDP sockets.
    Of groups only bits that are set count. A filter consists of instructions of 8 bytes, and
    memberships have 44 bytes."""
    for header, columns_shown, values in FAMILY_VALUES:
        for kind, value, detail, member, shown in values:
            capture = pcap(WIDE_HEADER, (SOCK_DIAG, with_attributes(header, (kind, value))))
            yield capture, "-O", [columns_shown, detail, "\n"]
            yield capture, "", {member: shown, "other_attributes": []}
    header, columns_shown, _ = FAMILY_VALUES[1]
    for kind, length in ((7, 1), (7, 7), (7, 9), (1, 1), (1, 43), (1, 45)):
        capture = listed(with_attributes(header, (kind, "00" * length)))
        yield capture, "-O", [columns_shown, f" unread:({kind},{length},wrong-length)\n"]
        yield capture, "", {"other_attributes": [
            {"kind": kind, "length": length, "hex": "00" * length, "error": "wrong-length"}]}


@table
def the_first_valid_attribute():
    """Of several attributes of a type the first valid one counts. The invalid ones are listed."""
    yield listed(REPEATED), "", REPEATED_LINES
    yield listed(REPEATED), "--json", REPEATED_OBJECT


@table
def short_tcp_info():
    """The fields of a short struct tcp_info have details if the request was for TCP sockets."""
    details = "ts sack wscale:(7,9) rto:204000 rtt:100 rttvar:50 cwnd:10 retrans:3\n"
    yield listed(TCP_REQUEST, SHORT_INFO), "", ["tcp   ", SHORT_INFO_COLUMNS, details]
    unread = "unread:(2,104,too-short)\n"
    yield listed(SHORT_INFO), "", ["inet6 ", SHORT_INFO_COLUMNS, unread]


@table
def times_that_were_not_measured():
    """Of a socket in SYN-SENT the kernel sends the minimum round-trip time 4294967295, and a mean
    deviation without a round-trip time. The table has neither, as that of ss(8), and JSON has the
    numbers."""
    for rtt, deviation, least, details in (
        (0, 250000, 0xFFFFFFFF, ""),
        (1, 250000, 0xFFFFFFFE, " rtt:1 rttvar:250000 minrtt:4294967294"),
        (7, 0, 0, " rtt:7"),
    ):
        info = struct.pack("<68x2I72xI", rtt, deviation, least).hex()
        capture = listed(TCP_REQUEST, with_attributes(INET4, (2, info)))
        yield capture, "-iO", [columns("tcp", INET4_LINE), details, "\n"]
        yield capture, "", {"info": Part(rtt=rtt, rttvar=deviation, min_rtt=least)}


@table
def bit_fields_of_tcp_info():
    """The last four bytes of a struct tcp_info of 280 bytes are bit fields since Linux 7.0. These
    are the bytes of classic ECN, accurate ECN and accurate ECN in SYN-SENT, and of a failure."""
    for value, details, mode, seen, failed in (
        ("00000000", "", 0, 0, 0),
        ("01000000", " ecn_mode:1", 1, 0, 0),
        ("0a000000", " ecn_mode:2 accecn_opt_seen:2", 2, 2, 0),
        ("03000000", " ecn_mode:3", 3, 0, 0),
        ("94000000", " accecn_opt_seen:1 accecn_fail_mode:9", 0, 1, 9),
    ):
        capture = listed(TCP_REQUEST, with_attributes(INET4, (2, "00" * 276 + value)))
        yield capture, "-iO", [columns("tcp", INET4_LINE), details, "\n"]
        yield capture, "", {"info": Part(
            ecn_mode=mode, accecn_opt_seen=seen, accecn_fail_mode=failed)}


@table
def the_payload_limit_of_tls():
    """Linux 7.2 sends the limit of the payload of TLS records: attribute 7 in those of TLS. One that
    does not have two bytes is left out."""
    for value, details, limit in (
        ("0040", " tx_max_payload_len:16384", {"tx_max_payload_len": 16384}), ("00400000", "", {}),
    ):
        tls = attributes((1, "0403"), (7, value), (6, ""))
        capture = listed(with_attributes(INET4, (19, attributes((1, "746c7300"), (2, tls)))))
        yield capture, "-iO", [columns("inet", INET4_LINE), " tcp-ulp-tls version:1.3", details,
                               " no_pad_rx\n"]
        tls = {"version": 772, **limit, "zc_ro_tx": False, "rx_no_pad": True}
        yield capture, "", {"ulp_info": {"name": "tls", "tls": tls}}


@table
def upper_layer_protocols():
    """The upper layer protocol of a TCP socket, and its MD5 keys."""
    tls = attributes((1, "0403"), (2, "3300"), (5, ""), (3, "0200"), (4, "0900"), (6, ""))
    flow = attributes((8, "41010000"), (1, "c2017f6a"), (2, "d0e4b953"), (9, "00"), (10, "02"),
                      (4, "3412000000000000"), (5, "11000000"), (7, "ff00"), (6, "01"))
    key4 = "02180600c0000200" + "00" * 12 + b"a, b=c".hex() + "00" * 74
    key6 = "0a40030020010db8" + "00" * 11 + "01" + b"xyz".hex() + "00" * 77
    for pair, detail, members in (
        ((19, attributes((1, b"tls\0".hex()), (2, tls))),
            " tcp-ulp-tls version:1.3 cipher:aes-gcm-128 rxconf:9 txconf:sw zc_ro_tx no_pad_rx",
            {"ulp_info": {"name": "tls", "tls": {"version": 0x304, "cipher": 51, "txconf": 2,
                                                 "rxconf": 9, "zc_ro_tx": True, "rx_no_pad": True}}}),
        ((19, attributes((1, b"mptcp\0".hex()), (3, flow))),
            " tcp-ulp-mptcp flags:Mev token:6a7f01c2(id:0)/53b9e4d0(id:2) seq:1234 sfseq:11 "
            "maplen:ff",
            {"ulp_info": {"name": "mptcp", "mptcp": {
                "token_rem": 0x6A7F01C2, "token_loc": 0x53B9E4D0, "map_seq": 0x1234,
                "map_sfseq": 17, "map_datalen": 255, "flags": 0x141, "id_rem": 0, "id_loc": 2}}}),
        ((19, attributes((1, b"x y".hex()))), r" tcp-ulp-x\x20y", {"ulp_info": {"name": "x y"}}),
        ((19, attributes((1, "ff"))), " unread:(19,8,not-utf8)", {"other_attributes": [
            {"kind": 19, "length": 8, "hex": "05000100ff000000", "error": "not-utf8"}]}),
        ((18, key4 + key6 + "00" * 100),
            r" md5keys:192.0.2.0/24=a\x2c\x20b=c,2001:db8::1/64=xyz,*/0=", {"md5sig": [
                {"family": 2, "prefixlen": 24, "keylen": 6, "addr": "192.0.2.0",
                 "key": "612c20623d63"},
                {"family": 10, "prefixlen": 64, "keylen": 3, "addr": "2001:db8::1",
                 "key": "78797a"},
                {"family": 0, "prefixlen": 0, "keylen": 0, "key": ""}]}),
        ((18, key4 + b"1234".hex()), " unread:(18,104,wrong-length)", {"other_attributes": [
            {"kind": 18, "length": 104, "hex": key4 + b"1234".hex(), "error": "wrong-length"}]}),
    ):
        capture = listed(with_attributes(INET4, pair))
        yield capture, "-iO", [columns("inet", INET4_LINE), detail, "\n"]
        yield capture, "", members


@table
def mptcp_info():
    """A struct mptcp_info ends before, in or after `mptcpi_flags`, at 8. Linux 7.2 has the number of
    fullmesh endpoints at 82, between two others."""
    for value, details, members in (
        ("00" * 8, "", {"flags": None}), ("00" * 8 + "020000", "", {"flags": None}),
        ("00" * 8 + "02000000", " remote_key", {"flags": 2, "token": None}),
        ("00" * 8 + "02000000ab0000", " remote_key", {"token": None}),
        ("00" * 8 + "02000000ab000000", " remote_key token:ab", {"token": 0xAB}),
        ("00" * 81 + "050700" + "00" * 12, " endp_laminar_max:5 endp_fullmesh_max:7",
            {"endp_laminar_max": 5, "endp_fullmesh_max": 7, "last_data_sent": 0}),
    ):
        capture = listed(MPTCP_REQUEST, with_attributes(INET4, (2, value)))
        yield capture, "-iO", [columns("mptcp", INET4_LINE), details, "\n"]
        yield capture, "", {"info": Part(members)}


def association(state, *pairs):
    """Returns a reply with this state, SCTP's addresses and the attributes `pairs`."""
    return with_attributes(f"{ASSOCIATION[:34]}{state:02x}{ASSOCIATION[36:]}", *pairs)


def association_columns(netid, state):
    """Returns the columns of such a reply."""
    return cells(f"{netid} {state} 0 0 6666 0 127.0.0.1%1:46964 127.0.0.1:6000")


@table
def sctp_associations():
    """The kernel lists an SCTP socket, and then each of its associations with INET_DIAG_PEERS and
    SCTP's own states. Without the request it may also be one. INET_DIAG_INFO is not a tcp_info."""
    details = " cong:reno locals:10.0.0.1 peers:10.0.0.1,fe80::1,* unknown:(2,368)\n"
    for requests, netid in ([SCTP_REQUEST], "sctp"), ([], "inet"):
        for state, name in enumerate(ASSOCIATION_STATES):
            capture = listed(*requests, association(state, *ASSOCIATION_ATTRIBUTES))
            yield capture, "-iO", [association_columns(netid, name), details]
            yield capture, "", {
                "netid": netid, "state_name": name, "state": state, "info": None, "locals": LOCALS,
                "peers": PEERS,
                "other_attributes": [{"kind": 2, "length": 368, "hex": "01" * 368}]}


@table
def sctp_sockets():
    """A reply without INET_DIAG_PEERS is about a socket, and has a TCP state. So has a reply that
    has this attribute and answers a request for TCP sockets."""
    for request, netid, pairs, details in (
        (SCTP_REQUEST, "sctp", ASSOCIATION_ATTRIBUTES[:2], " locals:10.0.0.1 unknown:(2,368)"),
        (TCP_REQUEST, "tcp", ASSOCIATION_ATTRIBUTES[3:], " peers:10.0.0.1,fe80::1,*"),
        (SCTP_REQUEST, "sctp", [(12, "")], ""),
        (SCTP_REQUEST, "sctp", [(12, ADDRESSES[0] + "00")], " unread:(12,129,wrong-length)"),
    ):
        for state, name in ((1, "ESTAB"), (3, "SYN-RECV"), (7, "UNCONN"), (10, "LISTEN")):
            capture = listed(request, association(state, *pairs))
            yield capture, "-iO", [association_columns(netid, name), details, "\n"]
            yield capture, "", {"state_name": name}


@table
def associations_by_state():
    """An association is closed, established, or in a state that TCP does not have. Such a state is
    in each group except bucket."""
    single = ("established", "syn-sent", "syn-recv", "fin-wait-1", "fin-wait-2", "time-wait",
              "closed", "close-wait", "last-ack", "listening", "closing")
    selecting = {0: {"closed", "all", "big"},
                 3: {"established", "all", "connected", "synchronized", "big"}}
    for state, name in enumerate(ASSOCIATION_STATES):
        capture = listed(SCTP_REQUEST, association(state, *ASSOCIATION_ATTRIBUTES))
        lines = [association_columns("sctp", name), "\n"]
        groups = selecting.get(state, {"all", "connected", "synchronized", "big"})
        for group in (*single, "all", "connected", "synchronized", "bucket", "big"):
            yield capture, f"-oO -- state {group}", lines if group in groups else []
        yield capture, "-oOl", lines if state == 0 else []


@table
def states_without_a_name():
    """States above 11 are in each group except bucket."""
    for state in ("0c", "1f", "20", "ff"):
        capture = listed(UNIX[:36] + state + UNIX[38:])
        for group in ("all", "connected", "synchronized", "big"):
            yield capture, f"-- state {group}", UNIX_LINE.replace("LISTEN ", "UNKNOWN")
        yield capture, "-- state bucket", []


@table
def timers():
    """Each kind of timer has a name, and one above 5 is unknown. Linux 7.2 has the kind 5. SCTP has
    one timer. The timers expire in 36 milliseconds."""
    names = ("on", "keepalive", "timewait", "persist", "delack", "unknown")
    of_sctp = association(3, *ASSOCIATION_ATTRIBUTES)
    for kind, name in enumerate(names, 1):
        for reply, shown, name in (
            (INET4, columns("inet", INET4_LINE), name),
            (of_sctp, association_columns("inet", "ESTAB"), "T3_RTX"),
        ):
            reply = f"{reply[:36]}{kind:02x}{reply[38:136]}24000000{reply[144:]}"
            yield listed(reply), "-oO", [shown, f" timer:({name},36ms,0)\n"]


@table
def names_in_utf8():
    """A name that is valid UTF-8 shows letters only with --utf8. It never shows a space or a
    character that changes the direction of writing. A Chinese letter takes two columns."""
    yield listed(LETTERS, NO_UTF8), "--utf8", [LETTERS_LINE, NO_UTF8_LINE]
    yield listed(LETTERS, NO_UTF8), "", [LETTERS_ESCAPED, NO_UTF8_LINE]


@table
def sockets_by_address():
    """Filters select the sockets whose addresses begin with these bits. An IPv4-mapped address also
    begins with those of an IPv4 address. fe80 is 1111 1110 1000 0000."""
    mapped = INET6.replace("fe800000000000000000000000000001", "00000000000000000000ffffc0000201")
    mapped_line = INET6_LINE.replace("[fe80::1]%3:22         ", "[::ffff:192.0.2.1]%3:22")
    for reply, line, meeting, others in [
        (INET6, INET6_LINE,
            "src [fe80::1], src FE80:0::0:1/128, src fe80::/10, src fec0::/9, src ff00::/7, src ::/0, "
            "dst 2001:db8::fe/127, dst 2001:db8:0::255.255.255.255/96, src [fe80::1]:22, dev 3",
            "src [fe80::], src fec0::/10, src ff00::/8, src 0.0.0.0/0, dst [2001:db8::fe], dev 2, "
            "dst [fe80::1], dst 2001:db8::7f/121, src [fe80::1]:23, src *:23"),
        (mapped, mapped_line,
            "src [::ffff:192.0.2.1], src [::ffff:c000:201], src ::ffff:0:0/96, src ::/80, "
            "src 192.0.2.1, src 192.0.0.0/16, src 0.0.0.0/0",
            "src ::/81, src 192.0.2.2, src 128.0.0.0/2, src [::192.0.2.1]"),
        (INET4, INET4_LINE,
            "src 192.0.2.1, src 192.0.2.1/32, src 192.0.2.0/31, src 192.0.2.255/24, "
            "src 255.0.0.0/2, dst 192.0.2.3/31, dst 10.0.0.0/0",
            "src 192.0.2.0, src 192.0.2.2/31, src 255.0.0.0/3, dst 192.0.2.1, src ::/0, "
            "src [::ffff:192.0.2.1], dst 192.0.2.3"),
        (UNIX, UNIX_LINE, "state all", "src 0.0.0.0/0, dst ::/0, not dst ::/0, sport >= 0"),
    ]:
        for text in meeting.split(", "):
            yield listed(reply), f"-- {text}", line
        for text in others.split(", "):
            yield listed(reply), f"-- {text}", []
    yield listed(INET6, mapped, UNIX), "-- src ::/64 dst 2001::/16", mapped_line


@table
def unspecified_addresses():
    """The address `::` is `*`, unless the first valid INET_DIAG_SKV6ONLY of the reply is not 0. JSON
    has the address. 0.0.0.0 has no other form."""
    peer = INET6.replace("20010db80000000000000000000000ff", ZEROS[:32])
    both = peer.replace("fe800000000000000000000000000001", ZEROS[:32])
    for reply, values, local, remote in (
        (both, [], "*%3:22", "*:40000"), (both, ["00"], "*%3:22", "*:40000"),
        (both, ["01"], "[::]%3:22", "[::]:40000"), (both, ["02"], "[::]%3:22", "[::]:40000"),
        (both, ["00", "01"], "*%3:22", "*:40000"), (both, ["01", "00"], "[::]%3:22", "[::]:40000"),
        (both, ["0101", "00", "01"], "*%3:22", "*:40000"),
        (both, ["", "01", "00"], "[::]%3:22", "[::]:40000"),
        (peer, ["00"], "[fe80::1]%3:22", "*:40000"), (peer, ["01"], "[fe80::1]%3:22", "[::]:40000"),
    ):
        capture = listed(with_attributes(reply, *((11, it) for it in values)))
        yield capture, "-oO", [cells(f"inet6 TIME-WAIT 0 0 0 1000 {local} {remote}"),
                               " timer:(timewait,0ms,0)\n"]
        yield capture, "", {"src": "::" if reply == both else "fe80::1", "dst": "::"}
    capture = listed(with_attributes(INET4.replace("c0000201", "00000000"), (11, "00")))
    yield capture, "-oO", [cells("inet ESTAB 0 0 5 1000 0.0.0.0:22 192.0.2.2:40000"), "\n"]


@table
def requests():
    """Lines of requests, with times in microseconds and nanoseconds, and none in a simple packet. A
    block of an unknown type is skipped."""
    packets = [(SOCK_DIAG, it) for it in (REQUEST, UNIX, MPTCP_REQUEST, OTHER_REQUEST)]
    for header, fraction in ((HEADERS[0], "000009000"), (HEADERS[2], "000000009")):
        time = f"-- 1970-01-01T00:00:07.{fraction}Z "
        yield pcap(header, *packets), "--requests", [
            time, "unix states:0xffffffff\n", UNIX_LINE,
            time, "mptcp family:inet states:0x480\n", time, "netlink\n"]
    capture = section(1, (SOCK_DIAG, REQUEST)) + digits(SECTION, NANOSECONDS, UNKNOWN, SIMPLE)
    yield capture + enhanced("<", SOCK_DIAG, REQUEST), "--requests", [
        f"-- {SEVEN} unix states:0xffffffff\n", list_heading(SEVEN_IN_NANOSECONDS),
        f"-- {SEVEN_IN_NANOSECONDS} unix states:0xffffffff\n"]


@table
def protocols():
    """The protocol of a socket. INET_DIAG_PROTOCOL, which events about closed sockets have, decides
    it whatever was requested, except of raw sockets, whose replies have the protocol of their
    packets there. Of several INET_DIAG_REQ_PROTOCOL in a request the last one counts, as in Linux.
    Before SOCK_DIAG_BY_FAMILY, requests for TCP and DCCP sockets and their replies had the types 18
    and 19, which are the protocol."""
    raw = TCP_REQUEST[:34] + "ff" + TCP_REQUEST[36:]
    last_udp, last_tcp = (f"58{TCP_REQUEST[2:]}08000300{first}00000008000300{last}000000"
                          for first, last in (("06", "11"), ("11", "06")))
    older = {kind: INET4[:8] + kind + INET4[10:] for kind in ("12", "13")}
    for requests, reply, values, netid, option in (
        ([], INET4, ["11"], "udp", "-u"), ([], INET4, ["06"], "tcp", "-t"),
        ([TCP_REQUEST], INET4, ["11"], "udp", "-u"), ([SCTP_REQUEST], INET4, ["06"], "tcp", "-t"),
        ([TCP_REQUEST], INET4, [], "tcp", "-t"), ([TCP_REQUEST], INET4, ["1100"], "tcp", "-t"),
        ([], INET4, ["1100", "11", "06"], "udp", "-u"),
        ([TCP_REQUEST], INET4, ["01"], "inet", "-4"),
        ([raw], INET4, ["06"], "raw", "-4"), ([raw], INET4, ["01"], "raw", "-4"),
        ([raw], INET4, [], "raw", "-4"),
        ([last_udp], INET4, [], "udp", "-u"), ([last_tcp], INET4, [], "tcp", "-t"),
        ([], older["12"], [], "tcp", "-t"), ([SCTP_REQUEST], older["12"], [], "tcp", "-t"),
        ([], older["13"], [], "dccp", "-4"), ([SCTP_REQUEST], older["13"], [], "dccp", "-4"),
    ):
        reply = with_attributes(reply, *((10, value) for value in values))
        capture = listed(*requests, reply)
        yield capture, f"-oO {option}", [columns(netid, INET4_LINE), "\n"]
        for other in {"-t", "-u"} - {option}:
            yield capture, f"-oO {other}", []
        yield capture, "", {"netid": netid}
    reply = with_attributes(SHORT_INFO, (10, "06"))
    yield listed(reply), "-tiO", [
        "tcp   ", SHORT_INFO_COLUMNS.splitlines()[0],
        " ts sack wscale:(7,9) rto:204000 rtt:100 rttvar:50 cwnd:10 retrans:3\n"]


@table
def invalid_replies_of_older_types():
    """A reply of the type 18 or 19 is about an IPv4 or IPv6 socket, so one of another family is
    invalid."""
    for kind in ("12", "13"):
        other = INET4[:8] + kind + INET4[10:32] + "10" + INET4[34:]
        for reply, error in (
            (UNIX[:8] + kind + UNIX[10:],
                "InetResponseHeader: buffer of 40 bytes, at least 72 needed"),
            (other, "unsupported address family 16: expected AF_INET (2) or AF_INET6 (10)"),
            (f"11000000{kind}000200070000000000000002000000",
                "invalid buffer: length is 1 but packets are at least 2 bytes"),
        ):
            yield pcap(WIDE_HEADER, (SOCK_DIAG, reply)), "", [], [f"packet 1, message 1: {error}"]


@table
def several_lists():
    """A request with the type and the bytes of the first one begins another list, whatever its flags
    and numbers are. Other requests do not, also if they are repeated. -H omits the heading, and
    JSON has the number of the list."""
    again = REQUEST[:12] + "0503" + "22222222" * 2 + REQUEST[32:]
    destroy = REQUEST[:8] + "1500" + REQUEST[12:]
    capture = listed(REQUEST, UNIX, TCP_REQUEST, destroy, UNIX, again, UNIX, TCP_REQUEST, destroy,
                     REQUEST)
    heading = list_heading(SEVEN)
    yield capture, "", [UNIX_LINE, UNIX_LINE, heading, UNIX_LINE, heading]
    yield capture, "-H", UNIX_LINE * 3
    first, second = OBJECTS[0][1] + "\n", OBJECTS[0][1][:-1] + ',"list":2}\n'
    yield capture, "--json", [first, first, second]
    unix, tcp, closed = (f"-- {SEVEN} {it}\n" for it in (
        "unix states:0xffffffff", "tcp family:inet states:0xffffffff",
        "destroy unix states:0xffffffff"))
    yield capture, "--requests", [unix, UNIX_LINE, tcp, closed, UNIX_LINE, heading, unix,
                                  UNIX_LINE, tcp, closed, heading, unix]


@table
def truncated_captures():
    """A capture that is truncated at any byte has the lines of its complete packets, and an error
    with the position."""
    for first, capture, header, ends in (
        (pcap(HEADERS[3], (SOCK_DIAG, UNIX)),
            pcap(HEADERS[3], (SOCK_DIAG, UNIX), (SOCK_DIAG, INET6)), 24, {0}),
        (section(1, (SOCK_DIAG, UNIX)),
            section(1, (SOCK_DIAG, UNIX)) + section(0, (SOCK_DIAG, INET6)), 28, {0, 28, 48}),
    ):
        whole = len(first)
        ends = {header, header + 20 * (header == 28), whole, *(whole + it for it in ends)}
        for length in range(len(capture)):
            packet = "" if length < header else f"packet {1 if length < whole else 2}: "
            error = packet + TRUNCATED
            if length < 4:
                error = TOO_SHORT if length else EMPTY
            lines = UNIX_LINE if length >= whole else None
            yield capture[:length], "", lines, [error] * (length not in ends)


@table
def truncated_packets():
    """A packet that is truncated at any byte has one line on standard error, and its complete
    messages are listed. A message that is wrong for another reason has a line too."""
    unix = reply(UNIX_HEADER)
    whole = SOCK_DIAG + unix + unix
    for length in range(80):
        yield digits(PCAP, recorded(whole[: 2 * length], 80)), "", (
            line("u_str LISTEN - - 20238 - * *", "sk:2a0") * (length >= 48)
        ), [f"packet 1: truncated to {length} of 80 bytes"]
    yield digits(PCAP, recorded(SOCK_DIAG + "03" + unix[2:], 80)), "", [], [
        "packet 1: truncated to 48 of 80 bytes",
        "packet 1, message 1: message length 3 is under 16"]


@table
def long_inputs():
    """Attributes of 65,532 bytes, paths of any length, and more requests than are retained."""
    long_value, shutdown = (200, "00" * 65528), (6, "01")
    yield pcap(WIDE_HEADER, (SOCK_DIAG, reply(UNIX_HEADER, *[long_value] * 3, shutdown))), "", line(
        "u_str LISTEN - - 20238 - * *", "sk:2a0 -->" + " unknown:(200,65528)" * 3)
    for size in (*range(1, 300), 4096, 65000):
        path = "/" + "a" * size
        yield pcap(WIDE_HEADER, (SOCK_DIAG, reply(UNIX_HEADER, (0, f"{path}\0".encode().hex())))), (
            ""), line(f"u_str LISTEN - - 20238 - {path} *", "sk:2a0")
    requests = (request("02060000" + numbers(it) + ZEROS) for it in range(300))
    yield listed(*requests, UNIX), "", UNIX_LINE


@table
def times():
    """The times of requests are those of Python's datetime: of the first and the last day of each
    month, the greatest time, and fractions of more than a second."""
    days = [datetime(year, month, 1) for year in range(1970, 2107) for month in range(1, 13)]
    starts = [int(day.replace(tzinfo=timezone.utc).timestamp()) for day in days]
    seconds = [it + shift for it in starts for shift in (0, 45_296, -1)]
    moments = [(it, it % 1_000_000) for it in seconds if 0 <= it < 1 << 32]
    moments += [((1 << 32) - 1, fraction) for fraction in (999_999, 1_000_000, (1 << 32) - 1)]
    packet = recorded(SOCK_DIAG + request("01" + "00" * 23))[16:]
    for header, unit in ((HEADERS[0], 1000), (HEADERS[1], 1)):
        lines = []
        for second, fraction in moments:
            whole, rest = divmod(second * 1_000_000_000 + fraction * unit, 1_000_000_000)
            date = datetime(1970, 1, 1) + timedelta(seconds=whole)
            lines.append(f"-- {date.isoformat()}.{rest:09}Z unix states:0x0\n")
        yield digits(header, *(numbers(*it) + packet for it in moments)), "--requests -H", lines


def answer(payload, flags=0, kind=2):
    """Returns the digits of an NLMSG_ERROR, or of another type."""
    return message(bytes.fromhex(payload), flags, kind).hex()


# What a kernel answers: the errors ENOENT, EACCES and EINVAL. The lines about the first and the
# last one, and about a request that is not in the answer.
NO_ENTRY, DENIED, WRONG = (struct.pack("<i", -it).hex() for it in (2, 13, 22))
ENOENT, EINVAL = (f"note: the kernel returned {it}" for it in ("ENOENT", "EINVAL"))
EARLIER = " (request: in an earlier packet)"


@table
def answers_of_a_kernel():
    """The lines about errors in messages of the types NLMSG_ERROR (2) and NLMSG_DONE (3)."""
    yield listed(
        answer(DENIED) + answer(WRONG), answer("00000000", 16, 3), answer(NO_ENTRY, 0, 3),
        answer("01010a00", 0, 20) + "03" + "00" * 19, answer("0102", 0, 3),
    ), "", [], [
        f"packet 1, message 1: the kernel returned error 13{EARLIER}",
        f"packet 1, message 2: {EINVAL}{EARLIER}",
        "packet 2, message 1: dump interrupted (NLM_F_DUMP_INTR)",
        f"packet 3, message 1: {ENOENT}{EARLIER}",
        "packet 4, message 1: UnixResponseHeader: buffer of 4 bytes, at least 16 needed",
        "packet 4, message 2: message length 3 is under 16",
        f"packet 5, message 1: the kernel's answer has no error number{EARLIER}",
    ]
    for error, shown in ((NO_ENTRY, ENOENT), (WRONG, EINVAL)):
        for kind in (2, 3):
            yield listed(answer(error, 0, kind)), "", [], [f"packet 1, message 1: {shown}{EARLIER}"]


@table
def explained_errors():
    """Errors with the attributes of an extended acknowledgement (NLM_F_ACK_TLVS, 512), after a whole
    request or after its header (NLM_F_CAPPED, 256). The sockets that a whole request is for are
    named if their family is known."""
    text, offset = attributes((1, b"No such attribute\x1b\0".hex())), attributes((2, numbers(36)))
    short, shown = answer("00" * 6, 0, 20) + "0000", ": No such attribute\\x1b"
    raw = request("0aff0000 fe000000" + ZEROS)
    raw_shown = " (request: raw family:inet6 states:0xfe)"
    for payload, flags, kind, expected in (
        (WRONG + raw, 0, 2, EINVAL + raw_shown),
        (WRONG + raw[:32], 256, 2, EINVAL + EARLIER),
        (WRONG + raw, 0, 3, EINVAL + EARLIER),
        (WRONG + raw + text, 512, 2, EINVAL + raw_shown + shown),
        (DENIED + request("01" + "00" * 23), 0, 2,
            "the kernel returned error 13 (request: unix states:0x0)"),
        (DENIED + answer("01" + "00" * 23, 0, 20), 0, 2, f"the kernel returned error 13{EARLIER}"),
        (NO_ENTRY + request("28" + "00" * 23), 0, 2, f"{ENOENT} (request: vsock)"),
        (NO_ENTRY + request("0206" + "00" * 54, kind=21), 0, 2,
            f"{ENOENT} (request: destroy tcp family:inet states:0x0)"),
        (WRONG + short + text + offset, 512, 2, f"{EINVAL}{EARLIER}{shown} (offset 36)"),
        (WRONG + short[:32] + offset, 768, 2, f"{EINVAL}{EARLIER} (offset 36)"),
        (WRONG + short[:32] + text, 768, 2, EINVAL + EARLIER + shown),
        (WRONG + short + text + offset, 0, 2, EINVAL + EARLIER),
        (WRONG + short[:32] + text + offset, 512, 2, EINVAL + EARLIER),
        (WRONG + text + offset, 512, 3, f"{EINVAL}{EARLIER}{shown} (offset 36)"),
        (DENIED + text, 512, 3, f"the kernel returned error 13{EARLIER}{shown}"),
    ):
        yield listed(answer(payload, flags, kind)), "", [], [f"packet 1, message 1: {expected}"]


@table
def errors():
    """The diagnostics and failures on standard error, with their numbers."""
    short = "UnixResponseHeader: buffer of 12 bytes, at least 16 needed"
    yield digits(OF_100, recorded(SOCK_DIAG + 3 * SHORT)), "", None, [
        f"packet 1, message {number}: {short}" for number in (1, 2, 3)]
    yield digits(OF_100, recorded("00" * 16), recorded(SOCK_DIAG[:-2]),
                 recorded(SOCK_DIAG + answer("", 16, 4)), recorded("00" * 16, 101),
                 "00"), "", None, [
        "packet 2: fewer than 16 bytes",
        "packet 3, message 1: dump interrupted (NLM_F_DUMP_INTR)",
        "packet 3, message 1: the kernel lost data",
        "packet 4: truncated to 16 of 101 bytes",
        f"packet 5: {TRUNCATED}",
    ]
    yield digits(OF_100, recorded(SOCK_DIAG + answer(NO_ENTRY + MPTCP_REQUEST)),
                 recorded(SOCK_DIAG + UNIX[:32], 72)), "", None, [
        f"packet 1, message 1: {ENOENT} (request: mptcp family:inet states:0x480)",
        "packet 2: truncated to 32 of 72 bytes",
    ]
    no_capture = "not a capture (pcap or pcapng, as tcpdump -w writes): it begins with 0x"
    for parts, error in (
        ([""], EMPTY), ([FRONT, "48"], TRUNCATED),
        ([FRONT, "4800000001000000"],
            "unsupported link type 1, expected 253 (netlink), as of nlmon0"),
        (["d4c3b2a10300", OF_100], "unsupported pcap version 3, expected 2"),
        *(([start, OF_100], f"compressed by {it}; decompress it first, with {it} -dc")
            for start, it in (("1f8b0800", "gzip"), (b"BZh9\x17rE8P\x90".hex(), "bzip2"),
                              ("fd377a58", "xz"), ("28b52ffd", "zstd"))),
        *(([start, "00" * 20], no_capture + start) for start in ("01020aff", b"BZx9".hex())),
        ([b"hello\n".hex()], no_capture + "68656c6c"),
        ([OF_100, numbers(7, 9, 262145, 262145)],
            "packet 1: packet length 262145 exceeds the maximum of 262144"),
        (["0a0d0d0a1c000000000000000000"], "unknown byte order of the section at offset 0"),
        ([SECTION, SIMPLE], "packet 1: unknown interface of the packet at offset 28"),
        *(([STARTS[0], block], f"packet 1: {error}") for block, error in INVALID),
    ):
        yield digits(*parts), "", None, [error]


@table
def other_blocks():
    """Packets of a pcapng file in the simple form, in an obsolete one and of another interface, after
    blocks without a packet: statistics, an interface of another link type, and an unknown type, of
    less than 16 MiB."""
    packet = digits(SOCK_DIAG, UNIX)
    for order, start in zip("<>", map(digits, STARTS)):
        simple = block(order, 3, struct.pack(order + "I", len(packet)) + packet)
        ethernet, netlink = (
            block(order, 1, struct.pack(order + "2HI", it, 0, 0)) for it in (1, 253))
        fields = struct.pack(order + "2H4I", 2, 7, 0, 7_000_009, len(packet), len(packet))
        obsolete = block(order, 2, fields + packet + struct.pack(order + "2HI", 2, 4, 0))
        capture = start + simple + block(order, 5, bytes(12)) + ethernet + netlink + obsolete
        capture += enhanced(order, SOCK_DIAG, UNIX, interface=2)
        yield capture, "", UNIX_LINE * 3
        for size, lines, error in (
            ((1 << 24) - 12, UNIX_LINE, []),
            (1 << 24, [], ["packet 1: invalid length of the block at offset 48"]),
        ):
            yield start + block(order, 0x80001234, bytes(size)) + simple, "", lines, error


@table
def another_capture():
    """A pcap file that follows a pcap file has an error, in each byte order and with each magic
    number. A packet that was captured in the second with such a number is listed."""
    unix = (SOCK_DIAG, UNIX)
    for header in HEADERS:
        yield pcap(PCAP, unix) + pcap(header, unix), "", UNIX_LINE, [
            "packet 2: another capture begins here; list the files separately"]
        yield digits(PCAP, header[:8]) + pcap(PCAP, unix)[28:], "", UNIX_LINE


def main():
    if len(sys.argv) != 2:
        sys.exit("usage: tests/captures.py SSLIST")
    for rows in TABLES:
        for row in rows():
            check(sys.argv[1], rows.__name__, *row)
    print(*runs.failures, sep="\n", end="\n" * bool(runs.failures))
    print(f"tests/captures.py: {runs.count} runs, {len(runs.failures)} errors")
    return 1 if runs.failures else 0


if __name__ == "__main__":
    sys.exit(main())
