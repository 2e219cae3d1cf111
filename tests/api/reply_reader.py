#!/usr/bin/env python3
"""An independent reader of replies of sock_diag(7), and replies to compare it with the library.

    reply_reader.py read              reads replies from standard input, a line each, and prints
                                        a line for each: what a lenient reading returns
    reply_reader.py make COUNT SEED   prints COUNT replies: stored ones, built ones, and changed
                                        copies of both
    reply_reader.py cuts              prints each stored reply, and each of its prefixes
    reply_reader.py kernels           prints each reply of the kernels in tests/api/kernels
    reply_reader.py odd               prints a reply for each row of the table "Odd replies" of
                                        docs/C.md and each family, if the reader answers as the
                                        table says

The line of a reply is `NAME HEX`, with the payload of the netlink message. NAME is `unix`, `inet`,
`netlink`, `packet`, `vsock` or `xdp`. Its answer is `error ERROR` if the header is rejected.
Otherwise it has each field of the header, each detail, and the rejections: the first error and its
offset, the code of the framing error, the code of the first error for each kind below 32, and for
each rejected attribute in order its kind, or `framing`, and its error. A detail that the reply does
not contain is `-`, and the numbers of a record are separated by commas. ERROR is a code, and the
other fields of `struct sockdiag_error_details` before `offset` in the order of the header,
separated by slashes.

The tables are written from sock_diag(7), linux/unix_diag.h, linux/inet_diag.h, linux/sock_diag.h,
linux/netlink_diag.h, linux/packet_diag.h, linux/vm_sockets_diag.h, linux/xdp_diag.h and the pages
in docs. The reader shares no code with the crates. compare_replies.sh compares its answers with
those of tests/api/print_replies.c.
"""

import gzip
import random
import struct
import sys
from pathlib import Path
from typing import NamedTuple

TOP = Path(__file__).resolve().parent.parent.parent
SOCK_DIAG_BY_FAMILY = 20
NLM_F_REQUEST = 1
# The two flags in the type field of an attribute, NLA_F_NESTED and NLA_F_NET_BYTEORDER.
NLA_FLAGS = 0xC000
REPORTED_KINDS = 32
# Codes of decode errors. The codes of framing errors are 7 to 9.
TOO_SHORT, UNSUPPORTED_FAMILY, HEADER_CUT, LENGTH_UNDER_4, LENGTH_PAST = 2, 3, 7, 8, 9
WRONG_LENGTH, NO_MULTIPLE_OF_4, NOT_UTF8 = 10, 11, 12
NAME_EMPTY, NAME_INNER_ZERO, NAME_WITHOUT_END = 13, 14, 15
# Numbers of the records that have a minimal length.
INET_HEADER, UNIX_HEADER, LEGACY_MEMORY, MEMORY, TCP_INFO, VFS, UNIX_MEMORY = 3, 5, 6, 7, 8, 9, 10
FAMILY_HEADER, FAMILY_ATTRIBUTE = 12, 13
AF_NETLINK, AF_PACKET, AF_VSOCK, AF_XDP = 16, 17, 40, 44


# The result for an invalid value that is not rejected.
NOT_CHECKED = object()


class Error(NamedTuple):
    """A decode error, with the fields of struct sockdiag_error_details in their order. The kind is
    a number, or `-` if the error has none."""

    code: int
    record: int = 0
    family: int = 0
    kind: object = "-"
    got: int = 0
    need: int = 0
    length: int = 0
    index: int = 0

    def __str__(self):
        return "/".join(map(str, self))


def exactly(length):
    """Returns a function that returns the error of a value, which has to have this length."""
    return lambda kind, value: None if len(value) == length else Error(
        WRONG_LENGTH, kind=kind, got=len(value), need=length)


def too_short(record, value, length):
    """Returns the error of a record with fewer bytes than this length, or None."""
    return None if len(value) >= length else Error(
        TOO_SHORT, record=record, got=len(value), need=length)


def at_least(record, length):
    """Returns a function that returns the error of a value, which may be longer."""
    return lambda _, value: too_short(record, value, length)


def list_error(_, value):
    """Returns the error of a list of u32."""
    return Error(NO_MULTIPLE_OF_4, got=len(value)) if len(value) % 4 else None


def name_error(_, value):
    """Returns the error of a name: it has a NUL at its start, or else only at its end."""
    if not value:
        return Error(NAME_EMPTY)
    zero = value.find(0)
    if zero < 0:
        return Error(NAME_WITHOUT_END)
    return None if zero in (0, len(value) - 1) else Error(NAME_INNER_ZERO, index=zero)


def text_error(_, value):
    """Returns the error of a text. A NUL at its end is valid UTF-8 too."""
    try:
        value.decode("utf-8")
    except UnicodeDecodeError:
        return Error(NOT_UTF8)
    return None


def name_text(value):
    """Returns the word for a valid name, without the NUL at its start or at its end."""
    is_abstract = value[0] == 0
    return f"abstract:{value[1:].hex()}" if is_abstract else f"text:{value[:-1].hex()}"


def number(start, end):
    """Returns a function that takes the little-endian number at these offsets of a value."""
    return lambda value: int.from_bytes(value[start:end], "little")


def any_value(*_):
    """Returns the error of a value that is not checked: none."""
    return None


def optional_number(start):
    """Returns a function that takes the u32 at this offset of a value, if the value has it."""
    return lambda value: number(start, start + 4)(value) if len(value) >= start + 4 else "-"


def numbers(form):
    """Returns a function that takes the little-endian numbers at the start of a value."""
    return lambda value: ",".join(map(str, struct.unpack_from(f"<{form}", value)))


def raw(value):
    """Returns the word for bytes that are not checked."""
    return f"bytes:{value.hex()}"


U32 = exactly(4), number(0, 4)
# u32, indexed by SK_MEMINFO_RMEM_ALLOC 0 to SK_MEMINFO_DROPS 8. Old kernels send the first seven.
MEMORY_FIELDS = {
    name: optional_number(4 * index) for index, name in enumerate((
        "memory_receive_queue", "memory_receive_queue_max", "memory_bottom_send_queues",
        "memory_send_queue_max", "memory_cache", "memory_send_queue", "memory_options",
        "memory_backlog_queue_length", "memory_drops",
    ))
}
SOCKET_MEMORY = (at_least(MEMORY, 28), MEMORY_FIELDS)

# The attributes that are parsed, by kind: the error of a value, and the details in a valid value.
# The error is None if the value is valid.
UNIX_ATTRIBUTES = {
    0: (name_error, {"name": name_text}),
    1: (at_least(VFS, 8), {"file_inode": number(0, 4), "file_device": number(4, 8)}),
    2: (exactly(4), {"peer": number(0, 4)}),
    3: (list_error, {}),
    4: (exactly(8), {"recv_queue": number(0, 4), "send_queue": number(4, 8)}),
    5: (at_least(UNIX_MEMORY, 36), MEMORY_FIELDS),
    6: (exactly(1), {"shutdown": number(0, 1)}),
    # A value of another length is not an error, and has no field.
    7: (lambda _, value: None if len(value) == 4 else NOT_CHECKED, {"owner": U32[1]}),
}
INET_ATTRIBUTES = {
    1: (at_least(LEGACY_MEMORY, 16), {"legacy_memory": numbers("4I")}),
    2: (at_least(TCP_INFO, 232), {}),
    4: (text_error, {"congestion": lambda value: f"text:{value.removesuffix(bytes(1)).hex()}"}),
    5: (exactly(1), {"tos": number(0, 1)}),
    6: (exactly(1), {"tclass": number(0, 1)}),
    7: SOCKET_MEMORY,
    8: (exactly(1), {"shutdown": number(0, 1)}),
    10: (exactly(1), {"protocol": number(0, 1)}),
    11: (exactly(1), {"v6only": lambda value: int(value != bytes(1))}),
    15: (exactly(4), {"mark": number(0, 4)}),
    17: (exactly(4), {"class_id": number(0, 4)}),
    # Values of other lengths are not errors, and have no field.
    21: (lambda _, value: None if len(value) == 8 else NOT_CHECKED, {"cgroup_id": number(0, 8)}),
    22: (lambda _, value: None if len(value) >= 2 else NOT_CHECKED, {"options": number(0, 2)}),
}


def family_record(family, length):
    """Returns a function that returns the error of a record in an attribute of this family."""
    return lambda kind, value: None if len(value) >= length else Error(
        TOO_SHORT, record=FAMILY_ATTRIBUTE, family=family, kind=kind, got=len(value), need=length)


def records(length):
    """Returns a function that returns the error of a value that does not consist of records."""
    return lambda kind, value: None if len(value) % length == 0 else Error(
        WRONG_LENGTH, kind=kind, got=len(value), need=length)


# NETLINK_DIAG_MEMINFO, NETLINK_DIAG_GROUPS and NETLINK_DIAG_FLAGS.
NETLINK_ATTRIBUTES = {
    0: SOCKET_MEMORY,
    1: (any_value, {"groups": raw}),
    4: (U32[0], {"flags": U32[1]}),
}
# PACKET_DIAG_INFO, _MCLIST, _RX_RING, _TX_RING, _FANOUT, _UID, _MEMINFO and _FILTER. struct
# packet_diag_info has 6 u32, and struct packet_diag_ring 7. Memberships have 44 bytes each, and
# instructions 8.
PACKET_ATTRIBUTES = {
    0: (family_record(AF_PACKET, 24), {"info": numbers("6I")}),
    1: (records(44), {"memberships": raw}),
    2: (family_record(AF_PACKET, 28), {"receive_ring": numbers("7I")}),
    3: (family_record(AF_PACKET, 28), {"send_ring": numbers("7I")}),
    4: (U32[0], {"fanout": U32[1]}),
    5: (U32[0], {"owner": U32[1]}),
    6: SOCKET_MEMORY,
    7: (records(8), {"filter": raw}),
}
# XDP_DIAG_INFO (2 u32), _UID, _RX_RING, _TX_RING, _UMEM (u64 and 8 u32), _UMEM_FILL_RING,
# _UMEM_COMPLETION_RING, _MEMINFO and _STATS (6 u64).
XDP_ATTRIBUTES = {
    1: (family_record(AF_XDP, 8), {"info": numbers("2I")}),
    2: (U32[0], {"owner": U32[1]}),
    3: (U32[0], {"receive_ring": U32[1]}),
    4: (U32[0], {"send_ring": U32[1]}),
    5: (family_record(AF_XDP, 40), {"umem": numbers("Q8I")}),
    6: (U32[0], {"fill_ring": U32[1]}),
    7: (U32[0], {"completion_ring": U32[1]}),
    8: SOCKET_MEMORY,
    9: (family_record(AF_XDP, 48), {"statistics": numbers("6Q")}),
}


def family_header(family, form, names):
    """Returns a function that returns the error of a header and its fields. `form` is the form of
    the whole struct for struct.unpack_from, which skips the family and the padding."""
    length = struct.calcsize(form)

    def parse(payload):
        if len(payload) < length:
            return Error(TOO_SHORT, record=FAMILY_HEADER, family=family, got=len(payload),
                         need=length), {}
        return None, dict(zip(names, struct.unpack_from(form, payload)))

    return parse


netlink_header = family_header(AF_NETLINK, "<x3B4IQ", (
    "kind", "protocol", "state", "port", "destination_port", "destination_group", "inode", "cookie",
))
packet_header = family_header(AF_PACKET, "<xBHIQ", ("kind", "protocol", "inode", "cookie"))
vsock_header = family_header(AF_VSOCK, "<x3B5IQ", (
    "kind", "state", "shutdown", "source_context", "source_port", "destination_context",
    "destination_port", "inode", "cookie",
))
xdp_header = family_header(AF_XDP, "<xBxxIQ", ("kind", "inode", "cookie"))


def unix_header(payload):
    """Returns the error of a struct unix_diag_msg, and its fields if there is no error."""
    if len(payload) < 16:
        return too_short(UNIX_HEADER, payload, 16), {}
    _, kind, state, _, inode, cookie = struct.unpack_from("<4BI8s", payload)
    return None, {"kind": kind, "state": state, "inode": inode, "cookie": cookie.hex()}


def inet_header(payload):
    """Returns the error of a struct inet_diag_msg, and its fields if there is no error."""
    if len(payload) < 72:
        return too_short(INET_HEADER, payload, 72), {}
    family, state, timer, retransmits = payload[:4]
    if family not in (2, 10):
        return Error(UNSUPPORTED_FAMILY, family=family), {}
    source_port, destination_port = struct.unpack_from(">HH", payload, 4)
    width = 4 if family == 2 else 16
    addresses = [payload[at : at + width].ljust(16, b"\0").hex() for at in (8, 24)]
    interface_id, cookie, expires = struct.unpack_from("<I8sI", payload, 40)
    recv_queue, send_queue, uid, inode = struct.unpack_from("<4I", payload, 56)
    return None, {
        "family": family,
        "state": state,
        "timer": timer,
        "retransmits": retransmits,
        "expires": expires,
        "source_port": source_port,
        "destination_port": destination_port,
        "source_address": addresses[0],
        "destination_address": addresses[1],
        "interface_id": interface_id,
        "cookie": cookie.hex(),
        "recv_queue": recv_queue,
        "send_queue": send_queue,
        "uid": uid,
        "inode": inode,
    }


# For each kind of reply: the size of its header, how it is parsed, and the attributes.
REPLIES = {
    "unix": (16, unix_header, UNIX_ATTRIBUTES),
    "inet": (72, inet_header, INET_ATTRIBUTES),
    "netlink": (28, netlink_header, NETLINK_ATTRIBUTES),
    "packet": (16, packet_header, PACKET_ATTRIBUTES),
    "vsock": (32, vsock_header, {}),
    "xdp": (16, xdp_header, XDP_ATTRIBUTES),
}
FAMILIES = {
    1: "unix", 2: "inet", 10: "inet", AF_NETLINK: "netlink", AF_PACKET: "packet",
    AF_VSOCK: "vsock", AF_XDP: "xdp",
}


def split(data, offset):
    """Yields (kind, value) for each attribute from the offset on. A framing error is yielded last,
    as (None, error)."""
    while offset < len(data):
        left = len(data) - offset
        if left < 4:
            yield None, Error(HEADER_CUT, got=left)
            return
        length, kind = struct.unpack_from("<HH", data, offset)
        if length < 4:
            yield None, Error(LENGTH_UNDER_4, length=length)
            return
        if length > left:
            yield None, Error(LENGTH_PAST, length=length, got=left)
            return
        yield kind & ~NLA_FLAGS, data[offset + 4 : offset + length]
        offset += (length + 3) // 4 * 4


def rejections(rejected):
    """Returns the words about the rejected attributes, which are a kind, or None, an error, and its
    offset."""
    framing, codes = 0, {}
    for kind, error, _ in rejected:
        if kind is None:
            framing = error.code
        elif kind < REPORTED_KINDS:
            codes.setdefault(kind, error.code)
    errors = ",".join(f"{kind}:{code}" for kind, code in sorted(codes.items()))
    every = ",".join(f"{'framing' if kind is None else kind}:{it}" for kind, it, _ in rejected)
    _, first, offset = rejected[0] if rejected else (0, 0, "-")
    return [f"first={first}", f"offset={offset}", f"framing={framing}", f"errors={errors or '-'}",
            f"rejected={every or '-'}"]


def answer(name, payload):
    """Returns the answer to a reply."""
    size, parse_header, attributes = REPLIES[name]
    error, fields = parse_header(payload)
    if error:
        return f"error {error}"
    # A field of the header and a detail may have the same name, so the details are separate.
    details, rejected = {detail: "-" for _, parts in attributes.values() for detail in parts}, []
    accepted, end = set(), size
    for kind, value in split(payload, size):
        error_of, parts = attributes.get(kind, (any_value, {}))
        error = value if kind is None else error_of(kind, value)
        offset, end = end, end + (len(value) + 7) // 4 * 4
        if error is NOT_CHECKED:
            continue
        if error:
            rejected.append((kind, error, offset))
            continue
        if kind not in accepted:
            details.update((detail, part(value)) for detail, part in parts.items())
        accepted.add(kind)
    words = [f"{key}={value}" for part in (fields, details) for key, value in part.items()]
    return " ".join([*words, *rejections(rejected)])


# The rows of the table "Odd replies" of docs/C.md: the attributes, the value of the detail, and the
# codes of the first error and of the framing error. `1` and `2` are attributes of a known kind
# with these values, `x` is one with an invalid value, `n` is `1` with the flag NLA_F_NESTED, `u` is
# one of an unknown kind, and `c` is one that is truncated.
ODD_REPLIES = (
    ("", "-", 0, 0),
    ("1", 1, 0, 0),
    ("12", 1, 0, 0),
    ("x", "-", WRONG_LENGTH, 0),
    ("x1", 1, WRONG_LENGTH, 0),
    ("1x", 1, WRONG_LENGTH, 0),
    ("1c", 1, LENGTH_PAST, LENGTH_PAST),
    ("xc", "-", WRONG_LENGTH, LENGTH_PAST),
    ("u1", 1, 0, 0),
    ("n2", 1, 0, 0),
)
# A kind of attribute of each family whose value is a u32, and its detail. A vsock socket has none.
ODD_KINDS = {
    "unix": (2, "peer"), "inet": (15, "mark"), "netlink": (4, "flags"), "packet": (4, "fanout"),
    "vsock": (4, None), "xdp": (2, "owner"),
}


def odd_replies():
    """Yields a reply for each row of the table and each family. Exits if the reader's answer is not
    as the row says."""
    for name, (kind, detail) in ODD_KINDS.items():
        attributes = {
            "1": struct.pack("<HHI", 8, kind, 1), "2": struct.pack("<HHI", 8, kind, 2),
            "n": struct.pack("<HHI", 8, kind | 0x8000, 1), "x": struct.pack("<HHI", 7, kind, 1),
            "u": struct.pack("<HHI", 8, 99, 1), "c": struct.pack("<HHI", 9, kind, 1),
        }
        family = next(number for number, it in FAMILIES.items() if it == name)
        header = bytes([family]).ljust(REPLIES[name][0], b"\0")
        for row, value, first, framing in ODD_REPLIES:
            payload = header + b"".join(attributes[letter] for letter in row)
            if detail is None and first != framing:
                first = framing  # No value is invalid.
            found = answer(name, payload).split()
            code = next(word for word in found if word.startswith("first=")).split("/")[0]
            expected = {f"framing={framing}", *([f"{detail}={value}"] if detail else [])}
            if code != f"first={first}" or not expected <= set(found):
                sys.exit(f"reply_reader: {name} {row}: {found}, not {expected} first={first}")
            yield name, payload


def numbered_messages(datagram):
    """Yields (type, flags, sequence number, payload) for each message of a datagram, as far as it
    is well-formed."""
    offset = 0
    while offset + 16 <= len(datagram):
        length, kind, flags, sequence = struct.unpack_from("<IHHI", datagram, offset)
        if length < 16:
            return
        yield kind, flags, sequence, datagram[offset + 16 : offset + length]
        offset += (length + 3) // 4 * 4


def messages(datagram):
    """Yields (type, flags, payload) for each message of a datagram."""
    return ((kind, flags, payload) for kind, flags, _, payload in numbered_messages(datagram))


def captured_datagrams(file=TOP / "crates/sslist/stdin"):
    """Yields the datagrams of a capture, which may be compressed: pcap, with a cooked header of 16
    bytes."""
    data = (gzip.decompress if file.suffix == ".gz" else bytes)(file.read_bytes())
    offset = 24
    while offset < len(data):
        (length,) = struct.unpack_from("<I", data, offset + 8)
        yield data[offset + 32 : offset + 16 + length]
        offset += 16 + length


def named(payload):
    """Returns the reply as (name, payload), or None if its family is of another kind of socket."""
    name = FAMILIES.get(payload[0] if payload else 0)
    return (name, payload) if name else None


def replies_of(file):
    """Yields each reply of a capture, with its name."""
    for datagram in captured_datagrams(file):
        for kind, flags, payload in messages(datagram):
            if kind == SOCK_DIAG_BY_FAMILY and not flags & NLM_F_REQUEST and named(payload):
                yield named(payload)


def kernel_replies():
    """Returns each reply of the kernels in tests/api/kernels once."""
    files = (TOP / "tests/api/kernels").glob("*.pcap.gz")
    return sorted({it for file in files for it in replies_of(file)})


def stored_replies():
    """Returns the replies in the stored capture, those of the stored lines, those about UNIX and
    internet sockets of the texts in tests/api/kernels, and of the kernels the longest one about a
    socket of each other family."""
    longest = {name: (name, payload) for name, payload in
               sorted(kernel_replies(), key=lambda it: len(it[1])) if name not in ("unix", "inet")}
    found = [*longest.values(), *replies_of(TOP / "crates/sslist/stdin")]
    files = [TOP / "crates/sockdiag/stdin", *(
        it for it in sorted((TOP / "tests/api/kernels").iterdir()) if it.suffix != ".gz")]
    for line in "\n".join(file.read_text() for file in files).splitlines():
        name, _, rest = line.partition(" ")
        if name in ("unix", "unixview", "inet", "message", "tcp", "udp", "mptcp"):
            try:
                payload = bytes.fromhex(rest)
            except ValueError:
                continue
            is_any = name not in ("unix", "unixview", "inet")
            found.append(named(payload) if is_any else (name[:4], payload))
    return sorted({it for it in found if it and len(it[1]) <= 2048})


# Lengths of values that kernels send, or that are close to a limit, by kind of reply and attribute.
# Each other attribute has up to 12 bytes, or seldom more.
LENGTHS = {
    ("unix", 1): (4, 7, 8, 9, 12),
    ("unix", 2): (3, 4, 5),
    ("unix", 3): (0, 4, 6, 8, 400),
    ("unix", 4): (4, 7, 8, 9),
    ("unix", 5): range(41),
    ("inet", 1): (12, 15, 16, 17),
    ("inet", 2): (48, 96, 104, 192, 224, 231, 232, 233, 240, 248, 280, 368),
    ("inet", 7): (24, 27, 28, 32, 36, 40),
    ("netlink", 0): (24, 27, 28, 31, 32, 35, 36, 40),
    ("netlink", 1): (0, 4, 8, 13),
    ("netlink", 4): (0, 3, 4, 4, 5),
    ("packet", 0): (0, 20, 23, 24, 25, 32),
    ("packet", 1): (0, 43, 44, 45, 88),
    ("packet", 2): (24, 27, 28, 29, 40),
    ("packet", 3): (0, 27, 28, 32),
    ("packet", 6): (24, 27, 28, 31, 32, 35, 36, 40),
    ("packet", 7): (0, 4, 8, 12, 80),
    ("xdp", 1): (4, 7, 8, 9),
    ("xdp", 5): (36, 39, 40, 41, 48),
    ("xdp", 8): (24, 27, 28, 31, 32, 35, 36, 40),
    ("xdp", 9): (24, 47, 48, 49, 56),
}
NAMES = (
    b"", b"\0", b"\0\0", b"\0abstract", b"\0a\0b", b"\0\xff\xfe", b"/run/a\0", b"/run/a", b"x\0",
    b"a\0b\0", b"/a\0b", b"/\xff\0", b"x" * 108, b"x" * 107 + b"\0",
)
TEXTS = (
    b"", b"\0", b"cubic\0", b"cubic", b"bbr\0\0", b"re\0no\0", b"\xc3\xa9\0", b"\xc3\0", b"\xff\0",
    b"\xed\xa0\x80", b"\xf4\x8f\xbf\xbf", b"\xf4\x90\x80\x80", b"\xc0\x80", b"\xe2\x82",
    b"\xe0\x9f\xbf", b"\xe0\xa0\x80", b"\xf0\x8f\xbf\xbf", b"\xf0\x90\x80\x80",
)


def built_value(rng, name, kind):
    """Returns a value for an attribute of this kind, which may be invalid."""
    if (name, kind) == ("unix", 0):
        return rng.choice(NAMES)
    if (name, kind) == ("inet", 4):
        return rng.choice(TEXTS)
    default = (0, 1, 1, 1, 2, 4, 4, 4, 5, 8, 12, 40, 280)
    value = rng.randbytes(rng.choice(LENGTHS.get((name, kind), default)))
    return bytes(len(value)) if rng.random() < 0.1 else value


def built_attribute(rng, name):
    """Returns an attribute of a random kind, mostly a known one, with padding."""
    others = rng.randrange(24), rng.choice((31, 32, 33, 0x3FFF))
    kind = rng.choice((*others, *REPLIES[name][2]))
    value = built_value(rng, name, kind)
    flags = rng.choice((0, 0, 0, 0, 0x4000, 0x8000, NLA_FLAGS))
    padding = rng.randbytes(-len(value) % 4)
    return struct.pack("<HH", 4 + len(value), kind | flags) + value + padding


def built_reply(rng):
    """Returns a reply with a random header and up to eight attributes."""
    name = rng.choice(("unix", "inet", "inet", "netlink", "packet", "vsock", "xdp", "xdp"))
    header = bytearray(rng.randbytes(REPLIES[name][0]))
    if name == "inet" and rng.random() < 0.97:
        header[0], header[2] = rng.choice((2, 10)), rng.randrange(7)
    elif name != "inet":
        header[0] = next(family for family, it in FAMILIES.items() if it == name)
    return name, bytes(header) + b"".join(
        built_attribute(rng, name) for _ in range(rng.randrange(9))
    )


def changed(rng, name, payload):
    """Returns a copy with one change: truncated, extended, without a byte, with other bytes, with
    another length or type field, or with one attribute more."""
    size = REPLIES[name][0]
    starts, offset = [], size
    for kind, value in split(payload, size):
        if kind is not None:
            starts.append(offset)
            offset += (len(value) + 7) // 4 * 4
    copy, at = bytearray(payload), rng.choice(starts) if starts else None
    choice = rng.randrange(7 if starts else 4)
    if choice == 0:
        return bytes(copy[: rng.randrange(len(copy) + 1)])
    if choice == 1:
        more = rng.randbytes(rng.randrange(9)), built_attribute(rng, name)
        return bytes(copy) + rng.choice(more)
    if choice == 2:
        for _ in range(rng.randrange(1, 4) if copy else 0):
            byte = rng.choice((0, 1, 4, 0x7F, 0x80, 0xFF, rng.randrange(256)))
            copy[rng.randrange(len(copy))] = byte
    elif choice == 3:
        index = rng.randrange(len(copy) + 1)
        copy[index : index + 1] = b""
    elif choice == 4:
        (length,) = struct.unpack_from("<H", copy, at)
        length = rng.choice((length - 1, length + 1, length ^ 4, rng.randrange(12), 0xFFFF))
        struct.pack_into("<H", copy, at, length & 0xFFFF)
    elif choice == 5:
        copy[at + 2] = rng.choice((copy[at + 2], *REPLIES[name][2]))
        copy[at + 3] ^= rng.choice((0x40, 0x80, 0xC0))
    else:
        copy[at:at] = built_attribute(rng, name)
    return bytes(copy)


def made_replies(count, seed):
    """Yields replies: a stored or a built one each, two of three with one to three changes."""
    rng, stored = random.Random(seed), stored_replies()
    for _ in range(count):
        name, payload = rng.choice(stored) if rng.random() < 0.4 else built_reply(rng)
        for _ in range(rng.choice((0, 1, 1, 1, 2, 3)) if rng.random() < 0.8 else 0):
            payload = changed(rng, name, payload)
        yield name, payload


def main():
    command, *words = sys.argv[1:] or ["help"]
    if command == "read" and not words:
        for line in sys.stdin:
            name, _, digits = line.rstrip("\n").partition(" ")
            print(answer(name, bytes.fromhex(digits)))
        return
    if command == "make" and len(words) == 2:
        replies = made_replies(int(words[0]), int(words[1]))
    elif command == "odd" and not words:
        replies = odd_replies()
    elif command == "kernels" and not words:
        replies = kernel_replies()
    elif command == "cuts" and not words:
        replies = sorted({(name, it[:end]) for name, it in stored_replies()
                          for end in range(len(it) + 1)})
    else:
        sys.exit("usage: reply_reader.py read | make COUNT SEED | cuts | kernels | odd")
    for name, payload in replies:
        print(name, payload.hex())


if __name__ == "__main__":
    main()
