"""Captures of replies of sock_diag(7) with their requests: what boot_kernels.py of tests/live and
answers.py of tests/answers share."""

import struct

import reply_reader

BY_FAMILY, INET, MPTCP = 20, (2, 10), 262
# The types of replies: SOCK_DIAG_BY_FAMILY, and the older TCPDIAG_GETSOCK and DCCPDIAG_GETSOCK.
REPLY_TYPES = (BY_FAMILY, 18, 19)


def protocol_of(request):
    """Returns the protocol of a request for internet sockets. That of MPTCP is in an attribute."""
    if len(request) < 56 or request[0] not in INET:
        return None
    attributes = dict(reply_reader.split(request, 56))
    return int.from_bytes(attributes.get(3, request[1:2]), "little")


def replies(capture):
    """Yields each reply of a capture, with the protocol of the request that it answers, or None."""
    protocols = {}
    for datagram in reply_reader.captured_datagrams(capture):
        for kind, flags, sequence, payload in reply_reader.numbered_messages(datagram):
            if kind not in REPLY_TYPES:
                continue
            # A report about a closed socket has the sequence number 0.
            if flags & reply_reader.NLM_F_REQUEST and sequence:
                protocols[sequence] = protocol_of(payload) if kind == BY_FAMILY else None
            else:
                yield protocols.get(sequence), payload


def message(payload, flags, sequence, port=0):
    """Returns a netlink message of type SOCK_DIAG_BY_FAMILY."""
    return struct.pack("<IHHII", 16 + len(payload), BY_FAMILY, flags, sequence, port) + payload


def reply(payload, sequence=1):
    """Returns the message of a reply, as in a dump, to the socket with port id 77."""
    return message(payload, 2, sequence, 77)


def request_for(protocol, family):
    """Returns a request for the internet sockets of a protocol."""
    start = struct.pack("<BBBxI48x", family, protocol & 0xFF, 0xFF, 0xFFFFFFFF)
    return start + (struct.pack("<HHI", 8, 3, protocol) if protocol == MPTCP else b"")


def packet(data):
    cooked = bytes.fromhex("00040338") + bytes(11) + b"\4"
    length = len(cooked) + len(data)
    return struct.pack("<IIII", 0, 0, length, length) + cooked + data


def capture(found):
    """Returns a capture of replies. Each follows its request, if that is for a protocol."""
    parts = [struct.pack("<IHHIIII", 0xA1B2C3D4, 2, 4, 0, 0, 1 << 18, 253)]
    for sequence, (protocol, payload) in enumerate(found, 1):
        if protocol is not None:
            parts.append(packet(message(request_for(protocol, payload[0]), 0x301, sequence)))
        parts.append(packet(reply(payload, sequence)))
    return b"".join(parts)
