#!/usr/bin/env python3
"""Runs sockdump with the replies of other kernels, and compares the captures that it writes.
c_api.sh runs this script.

    tests/api/sockdump.py SOCKDUMP

fake_kernel.c, which is preloaded, answers the requests with the replies of a file of
tests/api/kernels. The capture has to have the request for each kind of socket, as REQUESTS has it,
and each datagram of the answer, with its time. With --every it has to have one header and these
packets for each round. Also compared are the time between rounds, that each round is written as it
ends, how the program ends, and the texts of errors. A run that takes longer than LIMIT is killed,
so that its exit status differs. Prints the tests that failed. The exit status is 1 if one failed.
"""

import contextlib
import itertools
import os
import re
import signal
import socket
import struct
import subprocess
import sys
import tempfile
import threading
import time
from pathlib import Path

sys.dont_write_bytecode = True
import kernels

# The name and the family of each kind, in the order of the requests, and the request without its
# header. These were made by hand from the structs of linux/*_diag.h: all states, and all attributes
# that sslist decodes.
INET = "ffffffff" + 48 * "00"
REQUESTS = [(name, family, bytes.fromhex(digits)) for name, family, digits in (
    ("unix", 1, "01000000 ffffffff 00000000 7f000000 0000000000000000"),
    ("tcp", 2, "0206ff00" + INET),
    ("tcp", 10, "0a06ff00" + INET),
    ("udp", 2, "0211ff00" + INET),
    ("udp", 10, "0a11ff00" + INET),
    ("mptcp", 2, "0200ff00" + INET + "0800030006010000"),
    ("mptcp", 10, "0a00ff00" + INET + "0800030006010000"),
    ("raw", 2, "02ffff00" + INET),
    ("raw", 10, "0affff00" + INET),
    ("netlink", 16, "10ff0000 00000000 0b000000 0000000000000000"),
    ("packet", 17, "11000000 00000000 3f000000 0000000000000000"),
    ("vsock", 40, "28000000 ffffffff 00000000 00000000 0000000000000000"),
    ("xdp", 44, "2c000000 00000000 1f000000 0000000000000000"),
)]
# A file with replies of more than 4096 bytes.
LONG = kernels.HERE / "kernels/linux-6.18"
TOP = kernels.HERE.parent.parent
FILE_HEADER = bytes.fromhex("d4c3b2a1 02000400 00000000 00000000 00000400 fd000000")
COOKED_HEADER = bytes.fromhex("00040338 00000000 00000000 00000004")
OWN_PORT = 0xFEDCBA77
# The longest time that a run may take, in seconds.
LIMIT = 60
DUMP, BY_FAMILY, NOOP, ERROR, DONE, MULTI, ENOENT, EINVAL = 0x301, 20, 1, 2, 3, 2, 2, 22
SECONDS = "sockdump: --every=SECONDS needs a whole number from 1 to 86400\n"
EVENTS = "sockdump: --events takes tcp, udp or tcp,udp\n"
NO_KIND = "sockdump: --events takes no KIND, no --every and no FILTER\n"
UNKNOWN = "sockdump: unknown kind, or a filter without -- before it: {}; try sockdump -h\n"
NO_VALUE = "sockdump: unknown option, or one without its value: {}; try sockdump -h\n"
# Arguments, variables of the kernel, the exit status, and standard error.
FAILURES = [
    (["every"], {}, 2, UNKNOWN.format("every")),
    (["tcp", "a !~\033\177\udc9bb"], {}, 2, UNKNOWN.format("a?!~???b")),
    *(([*kinds, f"--every{it}"], {}, 2, SECONDS) for kinds in ([], ["unix"]) for it in (
        "", "=", "=0", "=86401", "=1s", "=-1", "=+1", "= 1", "=1 ", "=18446744073709551617", "s1")),
    (["--every=1", "nope"], {}, 2, UNKNOWN.format("nope")),
    *(([f"--events={it}"], {}, 2, EVENTS)
      for it in ("", ",", "tcp,", ",udp", "tc", "tcpx", "unix")),
    *((arguments, {}, 2, NO_KIND) for arguments in (
        ["--events", "tcp"], ["udp", "--events=udp"], ["--every=1", "--events"],
        ["--events", "--", "state", "all"])),
    (["--", "dst", "10.0.0.1", "frob\033"], {}, 2,
     "sockdump: filter: unexpected word at byte 13: frob?; try sockdump -h\n"),
    (["tcp", "--", "( sport = :1", "or"], {}, 2,
     "sockdump: filter: the filter is not complete at byte 15; try sockdump -h\n"),
    (["--", 257 * "! "], {}, 2, "sockdump: filter: more than 256 conditions, operators and groups "
     "at byte 512: !; try sockdump -h\n"),
    *(([it], {}, 2, NO_VALUE.format(it)) for it in ("--eventsx", "--netns", "-x")),
    (["--netns=/none", "tcp"], {}, 1, "sockdump: /none: No such file or directory\n"),
    *(([f"--netns={it}", "tcp"], {}, 1, f"sockdump: {it}: Invalid argument\n")
      for it in ("/dev/null", "/proc/self/ns/uts")),
    *((["--events"], {f"FAKE_KERNEL_{name}": "1"}, 1,
       f"sockdump: {call}: Operation not permitted\n")
      for name, call in (("REFUSES", "connect"), ("DENIES", "setsockopt"))),
    *((arguments, *how) for arguments in (["unix"], ["--every=1", "unix"]) for how in (
        *(({"FAKE_KERNEL_REFUSES": it}, 1, f"sockdump: {it}: Operation not permitted\n")
          for it in ("connect", "socket")),
        ({"FAKE_KERNEL_LACK": "1"}, 1, "sockdump: unix: truncated message\n"),
        ({"FAKE_KERNEL_EXCESS": "1"}, 1,
         "sockdump: unix: datagram of 65537 bytes exceeds the buffer\n"))),
    # A length field below the 16 bytes of the header, in the end of an answer and in a reply.
    *(([kind], {"FAKE_KERNEL_LENGTH": it}, 1, f"sockdump: {kind}: truncated message\n")
      for kind in ("xdp", "unix") for it in ("0", "1", "4", "12", "15")),
    # A message that is only a header, at the end of a datagram.
    (["xdp"], {"FAKE_KERNEL_LENGTH": "16", "FAKE_KERNEL_LACK": "4"}, 0, ""),
    (["unix", "tcp"], {"FAKE_KERNEL_END": "-1"}, 0,
     "".join(f"sockdump: {it}: Operation not permitted\n" for it in ("unix", "tcp"))),
    # A kernel that knows no such sockets, and one that rejects a filter.
    (["unix", "tcp"], {"FAKE_KERNEL_END": str(-EINVAL)}, 0,
     "sockdump: unix: note: this kernel does not list such sockets; their module is unix_diag\n"
     "sockdump: tcp: Invalid argument\n"),
    # The end of an answer that has other messages is an error.
    (["unix"], {"FAKE_KERNEL_END": str(-EINVAL), "FAKE_KERNEL_ODD": "1"}, 0,
     "sockdump: unix: Invalid argument\n"),
    # Without a file, this kernel loses the first datagram about UDP sockets.
    (["udp"], {"FAKE_KERNEL_REPLIES": None}, 1, "sockdump: recv: No buffer space available\n"),
]


def message(kind, flags, number, port, payload):
    return struct.pack("<IHHII", 16 + len(payload), kind, flags, number, port) + payload


def answer(file, name, family, number, selects=lambda _: True):
    """Returns the datagrams with which the kernel answers a request, which selects replies."""
    lines = [line.split() for line in file.read_text().splitlines()]
    replies = [bytes.fromhex(line[1]) for line in lines if line[:1] == [name]]
    if not replies:
        error = -ENOENT if family in (2, 10) else -EINVAL
        return [message(ERROR, 0, number, OWN_PORT, struct.pack("<i", error))]
    found = [message(BY_FAMILY, MULTI, number, OWN_PORT, it) for it in replies
             if it[0] == family and selects(it)]
    return [*found, message(DONE, MULTI, number, OWN_PORT, bytes(4))]


def expected_round(file, kinds=()):
    """Returns the datagrams of a round. An unknown kind is left out if it is not named."""
    found = []
    for number, (name, family, request) in enumerate(REQUESTS, 1):
        datagrams = answer(file, name, family, number)
        if name in kinds or not kinds and datagrams[0][4] != ERROR:
            found += [message(BY_FAMILY, DUMP, number, 0, request), *datagrams]
    return found


def expected_notes(file, kinds, states=b"\xff" * 4):
    """Returns what the program reports of kinds that are named, and of raw sockets in these states,
    if the kernel lacks the kinds."""
    files = [it for it in (Path("/proc/net/raw"), Path("/proc/net/raw6")) if it.exists()]
    found = [int(line.split()[3], 16) for it in files
             for line in it.read_text("ascii").splitlines()[1:]]
    has_raw = not kinds and any(states[it // 8] >> it % 8 & 1 for it in found)
    missing = dict.fromkeys(name for name, family, _ in REQUESTS
                            if name in kinds or has_raw and name == "raw"
                            if answer(file, name, family, 1)[0][4] == ERROR)
    modules = {"packet": "af_packet_diag", "xdp": "xsk_diag"}
    return "".join(f"sockdump: {it}: note: this kernel does not list such sockets; their module is "
                   f"{modules.get(it, f'{it}_diag')}\n" for it in missing)


def packets(capture):
    """Returns the time, in microseconds, and the datagram of each packet of a capture, after its
    header."""
    found, at = [], len(FILE_HEADER)
    assert capture[:at] == FILE_HEADER, f"header {capture[:at].hex()}"
    while at < len(capture):
        seconds, micro, stored, length = struct.unpack_from("<4I", capture, at)
        cooked = capture[at + 16 : at + 32]
        assert cooked == COOKED_HEADER, f"cooked header {cooked.hex()}"
        assert micro < 1000000 and stored == length <= len(capture) - at - 16, "length or time"
        found.append((seconds * 1000000 + micro, capture[at + 32 : at + 16 + stored]))
        at += 16 + stored
    return found


def compare(what, found, expected):
    """Fails if two values differ."""
    assert found == expected, f"{what}: {found}, expected {expected}"


def compare_datagrams(what, capture, expected):
    """Fails if the packets of a capture are not these datagrams."""
    compare(what, [it.hex() for _, it in packets(capture)], [it.hex() for it in expected])


class Runs:
    """Runs of the program with a kernel."""

    def __init__(self, program, library):
        self.program, self.library = program, library

    @contextlib.contextmanager
    def start(self, arguments, output, file, closed=None, **variables):
        """Starts the program with the replies of a file, and ends it with the block, or after
        LIMIT. A variable that is None is not set. A descriptor can be closed before."""
        own = kernels.environment(self.library, file, FAKE_KERNEL_ALONE="1")
        own = {name: it for name, it in (own | variables).items() if it is not None}
        how = {"env": own, "stdout": output, "stderr": subprocess.PIPE,
               "preexec_fn": kernels.without(closed)}
        with subprocess.Popen([self.program, *arguments], **how) as running:
            limit = threading.Timer(LIMIT, running.kill)
            limit.start()
            try:
                yield running
            finally:
                limit.cancel()
                running.kill()

    def end(self, arguments, output, file, **variables):
        """Runs the program. Returns its exit status, standard output and standard error."""
        with self.start(arguments, output, file, **variables) as running:
            written, errors = running.communicate()
        return running.returncode, written, errors.decode()


def test_usage(runs, files):
    """Prints the usage and the version, and requests nothing."""
    version = (TOP / "VERSION").read_bytes()
    for arguments in (["-V"], ["--version"], ["--version", "nope"]):
        found = runs.end(arguments, subprocess.PIPE, files[0])
        compare(f"{arguments}", found, (0, b"sockdump " + version, ""))
    for argument in ("-h", "--help"):
        status, usage, errors = runs.end([argument], subprocess.PIPE, files[0])
        compare(argument, (status, usage[:16], errors), (0, b"usage: sockdump ", ""))
    page = (TOP / "man/sockdump.1").read_text("utf-8")
    used, known = ({*re.findall(r"\w+", it.lower())} for it in (usage.decode(), page))
    compare("words of the usage that the manual page lacks", used - known - {"usage"}, set())
    compare("link type", re.findall(r"link type (\d+)", page), [str(FILE_HEADER[20])])
    kinds = sorted({name for name, *_ in REQUESTS})
    for found in (re.findall(r"(?m)^\.It Cm (\w+)$", page),
                  re.findall(r"[a-z]+", usage.decode().partition("KIND is")[2].split(".")[0])):
        compare("kinds", sorted({*found} - {"or"}), kinds)


def test_alone(*_):
    """Takes no filter without the C library."""
    error = b"sockdump: filter: this program was built without the C library\n"
    with tempfile.TemporaryDirectory() as folder:
        words = f"-std=c99 -O2 -Wall -Wextra -pedantic -Werror -o {folder}/sockdump".split()
        subprocess.run([os.environ.get("CC", "cc"), *words, TOP / "examples/sockdump.c"],
                       check=True)
        found = subprocess.run([f"{folder}/sockdump", "--", "state", "all"], check=False,
                               capture_output=True, timeout=LIMIT)
    compare("alone", (found.returncode, found.stdout, found.stderr), (2, b"", error))


def test_kinds(runs, files):
    """Requests all kinds, and some of them, also while signals interrupt the calls. A kind that the
    kernel lacks is written if it is named."""
    selections = ([], ["tcp"], ["xdp", "vsock", "raw", "unix"], ["mptcp", "netlink", "packet"])
    signals = ({}, {"FAKE_KERNEL_SIGNALS": "1"})
    for file, kinds, variables in itertools.product(files, selections, signals):
        what = f"{file.name} {kinds} {variables}"
        started = time.time_ns() // 1000
        status, written, errors = runs.end(kinds, subprocess.PIPE, file, **variables)
        compare(what, (status, errors), (0, expected_notes(file, kinds)))
        times = [started, *(it for it, _ in packets(written)), time.time_ns() // 1000]
        compare("times", times, sorted(times))
        compare_datagrams(what, written, expected_round(file, kinds))


def test_failures(runs, files):
    """Compares the texts of errors. The datagram before an error is written."""
    for arguments, variables, status, errors in FAILURES:
        found = runs.end(arguments, subprocess.PIPE, files[0], **variables)
        compare(f"{arguments} {variables}", (found[0], found[2]), (status, errors))
        if status == 2 or "FAKE_KERNEL_REFUSES" in variables:
            compare(f"{arguments}", found[1], b"")
    # One round is longer than the buffer of standard output, the other one is not.
    for arguments in ([], ["unix"], ["--every=1"], ["--help"], ["--version"]):
        with open("/dev/full", "wb") as full:
            found = runs.end(arguments, full, LONG)
        compare(f"{arguments} >/dev/full", found,
                (1, None, "sockdump: standard output: No space left on device\n"))
    requested = expected_round(files[0])
    _, written, _ = runs.end(["unix"], subprocess.PIPE, files[0], FAKE_KERNEL_LACK="1")
    compare_datagrams("truncated", written, [requested[0], requested[1][:-1]])
    _, written, _ = runs.end(["unix"], subprocess.PIPE, files[0], FAKE_KERNEL_EXCESS="4")
    lengths = struct.unpack_from("<2I", written, len(written) - 65536 - 24)
    compare("excess", lengths, (65536 + 16, 65540 + 16))


def test_name_space(runs, files):
    """Enters a network namespace, which is its own one, if the system permits it."""
    found = runs.end(["--netns=/proc/self/ns/net", "unix"], subprocess.PIPE, files[0])
    if found != (1, b"", "sockdump: /proc/self/ns/net: Operation not permitted\n"):
        compare("--netns", found[::2], (0, expected_notes(files[0], ["unix"])))
        compare_datagrams("--netns", found[1], expected_round(files[0], ["unix"]))


def test_not_open(runs, files):
    """Runs the program without standard input, output or error: a socket would get its number. The
    kernel aborts a program that opens it."""
    for closed in range(3):
        status, written, errors = runs.end([], subprocess.PIPE, files[0], closed=closed)
        if closed == 1:
            compare("without 1", (status, written, errors),
                    (1, b"", "sockdump: standard output is not open\n"))
        else:
            compare(f"without {closed}", (status, errors), (0, ""))
            compare_datagrams(f"without {closed}", written, expected_round(files[0]))


def test_rounds(runs, files):
    """Writes rounds to a file, until a signal ends the program. They start a second after each
    other, and are complete."""
    expected = expected_round(files[0])
    size = len(FILE_HEADER) + 3 * sum(32 + len(it) for it in expected)
    every = ["--every=2", "--every=1"]
    with tempfile.NamedTemporaryFile() as output, runs.start(every, output, files[0]) as running:
        while os.fstat(output.fileno()).st_size < size and running.poll() is None:
            time.sleep(0.05)
        if running.poll() is None:
            opened = len(os.listdir(f"/proc/{running.pid}/fd"))
            assert opened < 6, f"{opened} descriptors are open"
        running.send_signal(signal.SIGTERM)
        compare("signal", (running.communicate()[1], running.returncode), (b"", -signal.SIGTERM))
        written = Path(output.name).read_bytes()
    times = [it for it, _ in packets(written)[:: len(expected)]]
    compare_datagrams("rounds", written, len(times) * expected)
    between = [later - earlier for earlier, later in zip(times, times[1:])]
    assert len(times) >= 3 and 900000 < min(between) < 1900000, f"rounds at {times}"


def test_slow_rounds(runs, files):
    """The time between the starts of rounds does not grow by that of a round."""
    expected = expected_round(files[0], ["unix"])
    size = len(FILE_HEADER) + 3 * sum(32 + len(it) for it in expected)
    with runs.start(["--every=1", "unix"], subprocess.PIPE, files[0],
                    FAKE_KERNEL_DELAY="600") as running:
        written = running.stdout.read(size)
    times = [it for it, _ in packets(written)[:: len(expected)]]
    between = [later - earlier for earlier, later in zip(times, times[1:])]
    assert min(between) < 1300000, f"rounds at {times}"


def test_clock(runs, files):
    """Writes rounds while the clock with the time of a packet stands still."""
    expected = 2 * expected_round(files[0])
    size = len(FILE_HEADER) + sum(32 + len(it) for it in expected)
    variables = {"FAKE_KERNEL_TIME": "1700000000.123456789"}
    with runs.start(["--every=1"], subprocess.PIPE, files[0], **variables) as running:
        written = running.stdout.read(size)
    compare_datagrams("clock", written, expected)
    compare("clock", {it for it, _ in packets(written)}, {1700000000123456})


def events(file, kinds):
    """Returns the events of the replies of a file about these kinds of sockets, which have the
    sequence number and the port id 0."""
    lines = [line.split() for line in file.read_text().splitlines()]
    return [message(BY_FAMILY, 0, 0, 0, bytes.fromhex(line[1]))
            for line in lines if line and line[0] in kinds]


def test_events(runs, files):
    """Writes the events of the groups that are joined, also after the kernel dropped one, which is
    reported. This kernel ends them by an error."""
    ended = "sockdump: recv: Connection timed out\n"
    for file, (argument, kinds), (variables, lost) in itertools.product(
            files, (("", ("tcp", "udp")), ("=tcp", ("tcp",)), ("=udp", ("udp",)),
                    ("=udp,tcp", ("tcp", "udp"))),
            (({}, ""), ({"FAKE_KERNEL_SIGNALS": "1"}, ""),
             ({"FAKE_KERNEL_DROPS": "1"}, "sockdump: events were lost\n"))):
        what = f"{file.name} --events{argument} {variables}"
        found = runs.end([f"--events{argument}"], subprocess.PIPE, file, **variables)
        compare(what, (found[0], found[2]), (1, lost + ended))
        compare_datagrams(what, found[1], events(file, kinds))
    with open("/dev/full", "wb") as full:
        found = runs.end(["--events"], full, LONG)
    compare("--events >/dev/full", found,
            (1, None, "sockdump: standard output: No space left on device\n"))


def test_filters(runs, files):
    """Requests sockets that a filter selects: by states of all kinds that have some, and by
    conditions on internet sockets."""
    # sport >= :22 and sport <= :8080, as the kernel runs it: a jump past the end rejects.
    program = bytes.fromhex("1400 0100 0208 1400 0000 1600 0308 0c00 0000 901f")
    listening = struct.pack("<I", 1 << 10)
    # Closed TCP sockets are also those that are only bound, the state 13 of requests.
    closed, connected = (struct.pack("<I", it) for it in (
        1 << 7 | 1 << 13, 0xffffffff ^ (1 << 7 | 1 << 10 | 1 << 13)))
    for file, (words, kinds, states, attribute) in itertools.product(files, (
            (["state listening", "sport", ">= :22 and sport <= :8080"], (), listening, program),
            (["sport >= :22", "sport <= :8080"], ("unix", "tcp"), b"\xff" * 4, program),
            (["state", "listening"], (), listening, b""), ([], ("tcp",), b"\xff" * 4, b""),
            (["state closed"], ("tcp", "udp"), closed, b""),
            (["state connected"], ("unix", "tcp"), connected, b""),
            (["state closed state listening"], ("tcp",), struct.pack("<I", 1 << 7 | 1 << 10), b""),
            (["state listening"], ("netlink", "vsock"), listening, b""))):
        expected = []
        for number, (name, family, request) in enumerate(REQUESTS, 1):
            is_inet = family in (2, 10)
            if name not in kinds if kinds else attribute and not is_inet:
                continue
            if family in (1, 2, 10, 40):
                request = request[:4] + states + request[8:]

            def selects(it):
                state, port = it[1 + (family == 1)], int.from_bytes(it[4:6], "big")
                return (family not in (1, 2, 10) or states[state // 8] >> state % 8 & 1) and (
                    not is_inet or not attribute or 22 <= port <= 8080)

            datagrams = answer(file, name, family, number, selects)
            if kinds or datagrams[0][4] != ERROR:
                request += attribute if is_inet else b""
                expected += [message(BY_FAMILY, DUMP, number, 0, request), *datagrams]
        found = runs.end([*kinds, "--", *words], subprocess.PIPE, file)
        compare(f"{kinds} {words}", (found[0], found[2]),
                (0, expected_notes(file, kinds, states)))
        compare_datagrams(f"{file.name} {kinds} {words}", found[1], expected)


def test_raw(runs, files):
    """Reports that raw sockets are missing, if there are some in the selected states."""
    try:
        raw = socket.socket(socket.AF_INET, socket.SOCK_RAW, 253)
    except PermissionError:
        return print("sockdump: skipped: raw sockets: no permission")
    with raw:
        for is_connected, words, states, is_missing in (
            (0, "state all", b"\xff" * 4, 1), (0, "state closed", b"\x80\0\0\0", 1),
            (0, "state listening", b"\0\4\0\0", 0), (1, "state established", b"\2\0\0\0", 1),
        ):
            if is_connected:
                raw.connect(("127.0.0.1", 0))
            note = expected_notes(files[0], (), states)
            compare(words, bool(note), bool(is_missing))
            compare(words, runs.end(["--", words], subprocess.PIPE, files[0])[::2], (0, note))


def test_odd_length(runs, files):
    """Compares datagrams that begin with a message of 33 bytes, and its padding."""
    odd = message(NOOP, 0, 1, OWN_PORT, bytes([1, 1, 10, *bytes(14)])) + bytes(3)
    request, *datagrams = expected_round(files[0], ["unix"])
    found = runs.end(["unix"], subprocess.PIPE, files[0], FAKE_KERNEL_ODD="1")
    compare("odd length", (found[0], found[2]), (0, ""))
    compare_datagrams("odd length", found[1], [request, *(odd + it for it in datagrams)])


def test_terminal(runs, files):
    """Writes no capture to a terminal."""
    ends = os.openpty()
    found = runs.end([], ends[1], files[0])
    for end in ends:
        os.close(end)
    error = "sockdump: standard output is a terminal; try sockdump | sslist\n"
    compare("terminal", found, (1, None, error))


def test_closed_pipe(runs, files):
    """Closes the pipe while the program waits for the next round, and before the first one."""
    expected = expected_round(files[0])
    size = len(FILE_HEADER) + sum(32 + len(it) for it in expected)
    with runs.start(["--every=86400"], subprocess.PIPE, files[0]) as running:
        written = running.stdout.read(size)
        running.stdout.close()
        compare("closed", (running.wait(), running.stderr.read()), (0, b""))
    compare_datagrams("closed", written, expected)
    for arguments, status in ((["--every=86400"], 0), (["--events"], 0), ([], -signal.SIGPIPE)):
        reader, writer = os.pipe()
        os.close(reader)
        found = runs.end(arguments, writer, files[0])
        os.close(writer)
        compare(f"{arguments}, closed before", found, (status, None, ""))


def test_lost_and_closed(runs, _):
    """Closes the pipe after the kernel dropped an event: while the program writes to the full pipe,
    and while it waits."""
    for drops in ("1", "closed"):
        reader, writer = os.pipe()
        with tempfile.NamedTemporaryFile("w") as file:
            # More than the pipe takes.
            file.write(100 * LONG.read_text())
            file.flush()
            with runs.start(["--events"], writer, file.name, FAKE_KERNEL_DROPS=drops) as running:
                os.close(writer)
                compare(drops, os.read(reader, len(FILE_HEADER)), FILE_HEADER)
                errors = running.stderr.readline() if drops == "1" else b""
                os.close(reader)
                errors += running.stderr.read()
                compare(drops, (running.wait(), errors), (1, b"sockdump: events were lost\n"))


def main():
    files, failed = kernels.replies(), 0
    with tempfile.TemporaryDirectory() as folder:
        runs = Runs(sys.argv[1], kernels.build(folder))
        for test in [it for name, it in globals().items() if name.startswith("test_")]:
            try:
                test(runs, files)
            except AssertionError as error:
                print(f"{test.__name__}: {error}")
                failed += 1
    print(f"sockdump: {failed} tests failed" if failed else "sockdump: all tests pass")
    return 1 if failed else 0


if __name__ == "__main__":
    sys.exit(main())
