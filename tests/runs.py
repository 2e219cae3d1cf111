"""Runs a program and compares what it writes, and makes messages of netlink and captures of them,
for tables of tests."""

import re
import struct
import subprocess
from pathlib import Path

TOP = Path(__file__).resolve().parent.parent
# The capture that sslist is tested with, and its table.
CAPTURE, TABLE = (TOP / "crates/sslist" / it for it in ("stdin", "stdout"))
HEADING = TABLE.read_text("utf-8").splitlines(True)[0]
# A pcap file header: little-endian, with microseconds. And the cooked header of sock_diag(7).
PCAP = "d4c3b2a102000400000000000000000000100000fd000000"
SOCK_DIAG = "00040338000000000000000000000004"
# What the runs so far showed that was not expected, and their number.
failures, count = [], 0


def run(program, arguments, given, to=subprocess.PIPE, **more):
    """Returns the exit status, standard output and standard error of a run. Its input is bytes or a
    file descriptor."""
    global count
    count += 1
    more |= {"input": given} if isinstance(given, bytes) else {"stdin": given}
    ended = subprocess.run([program, *arguments], stdout=to, stderr=subprocess.PIPE, timeout=60,
                           **more)
    return ended.returncode, ended.stdout or b"", ended.stderr


def expect(what, found, expected):
    """Notes a failure if two values differ."""
    if found != expected:
        failures.append(f"{what}:\n    {found}\nexpected\n    {expected}")


def check(program, arguments, given, status, output, errors=b"", to=subprocess.PIPE, **more):
    """Compares a run with what is expected. The expected errors are a regular expression."""
    got = run(program, arguments, given, to, **more)
    if got[:2] != (status, output) or not re.fullmatch(errors, got[2]):
        shown = f"{got[0]} {got[1][-60:]} {got[2]}, expected {status} {output[-60:]} {errors}"
        failures.append(f"{Path(program).name} {arguments}: {shown}")


def message(body, flags=0, kind=20, number=77):
    """Returns a netlink message with these flags, this type and this sequence number."""
    return struct.pack("<IHHII", 16 + len(body), kind, flags, number, 0) + bytes(body)


def attribute(kind, value):
    """Returns an attribute with its padding."""
    return struct.pack("<HH", 4 + len(value), kind) + bytes(value) + bytes(-len(value) % 4)


def packet(body, flags=0, kind=20, more=b""):
    """Returns a packet of a capture: a netlink message, followed by the messages `more`."""
    messages = message(body, flags, kind) + more
    length = 16 + len(messages)
    return struct.pack("<IIII", 0, 0, length, length) + bytes.fromhex(SOCK_DIAG) + messages


def pcap(header, *packets):
    """Returns a capture with this file header, of packets in hexadecimal digits. The time of each is
    7 seconds and 9 units. A header that begins with `a` is big-endian."""
    capture = bytes.fromhex(header)
    for digits in packets:
        data = bytes.fromhex("".join(digits))
        capture += struct.pack(f"{'>' if header[0] == 'a' else '<'}4I", 7, 9, len(data), 0) + data
    return capture


def listed(*messages):
    """Returns a capture of these messages of sock_diag(7), in hexadecimal digits."""
    return pcap(PCAP, *((SOCK_DIAG, it) for it in messages))


def attributes(*pairs):
    """Returns the digits of these attributes, each a type and the digits of its value."""
    return "".join(attribute(kind, bytes.fromhex(value)).hex() for kind, value in pairs)


def with_attributes(reply, *pairs):
    """Returns the digits of a reply with these further attributes."""
    reply += attributes(*pairs)
    return struct.pack("<I", len(reply) // 2).hex() + reply[8:]
