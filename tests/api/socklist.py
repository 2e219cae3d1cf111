#!/usr/bin/env python3
"""Runs socklist, and compares what it prints, how it ends, which arguments it gives to sockdump and
sslist, and which sockets it has the kernel close. A run that takes longer than LIMIT is killed.
c_api.sh runs this script.

    tests/api/socklist.py SOCKLIST SOCKDUMP SSLIST

Sockets are those of captures that are made here, which a stand-in of sockdump writes; or of
fake_kernel.c, which is preloaded into the three programs. Prints the tests that failed. The exit
status is 1 if one failed.
"""

import contextlib
import ctypes
import errno
import itertools
import json
import os
import pty
import re
import resource
import shutil
import signal
import socket
import struct
import subprocess
import sys
import tempfile
import threading
from pathlib import Path

sys.dont_write_bytecode = True
import kernels
import sockdump
from sockdump import BY_FAMILY, DUMP, FILE_HEADER, COOKED_HEADER, LIMIT, compare, message

TCP, UDP, MPTCP = 6, 17, 262
RANGE = Path("/proc/sys/net/ipv4/ip_local_port_range")
TRY = "; try socklist --help\n"
LISTENING = "state listening state closed"
# The states of connections, and these with the state of sockets that are no connections.
WAITING = "exclude listening exclude bucket"
CONNECTED = f"{WAITING} exclude closed"
# The details that sslist writes if none are requested.
FEW = ["-o"]
# Arguments, those that sockdump and sslist get, the filter that both get after --, and conditions
# after it that only sockdump gets.
ARGUMENTS = [
    ([], [], FEW, CONNECTED),
    (["-a"], [], FEW, ""),
    (["-tlnp"], ["tcp"], FEW, LISTENING),
    (["-tuna", "-e"], ["tcp", "udp"], ["-e", "-o"], ""),
    (["-tr"], ["tcp"], FEW, CONNECTED),
    (["-s", "--resolve"], [], [*FEW, "-O"], ""),
    (["--summary", "-tl"], ["tcp"], [*FEW, "-O"], LISTENING),
    (["--listening", "--processes", "--numeric", "--mptcp"], ["mptcp"], FEW, LISTENING),
    *((["-a", *it], [], it, "") for it in (
        ["--info"], ["--memory"], ["--options"], ["-o", "-m"], ["-i"])),
    (["--extended", "--no-header", "--oneline", "-a"], [],
     ["--extended", "--no-header", "--oneline", "-o"], ""),
    (["-a", "--requests", "--utf8", "-HO"], [], ["--requests", "--utf8", "-HO", *FEW], ""),
    (["--all"], [], FEW, ""),
    (["-la"], [], FEW, ""),
    (["-al"], [], FEW, LISTENING),
    (["-xH"], ["unix"], ["-H", *FEW], CONNECTED),
    *(([f"--{it}"], [it], FEW, WAITING) for it in ("packet", "netlink", "xdp")),
    *(([f"--{it}"], [it], FEW, CONNECTED) for it in (
        "tcp", "udp", "mptcp", "raw", "unix", "vsock")),
    (["-0"], ["packet"], FEW, WAITING),
    (["-t", "--vsock", "--xdp"], ["tcp", "vsock", "xdp"], FEW, WAITING),
    (["-wa"], ["raw"], FEW, ""),
    (["-A", "unix,tcp", "--query=raw", "-a"], ["tcp", "raw", "unix"], FEW, ""),
    (["-tAraw", "--socket", "xdp", "--query", "udp", "-a"], ["tcp", "udp", "raw", "xdp"], FEW,
     ""),
    (["-A", "inet"], ["tcp", "udp", "mptcp", "raw"], FEW, CONNECTED),
    (["--socket=unix,all"], ["tcp", "udp", "mptcp", "raw", "unix", "packet", "netlink", "vsock",
                             "xdp"], FEW, WAITING),
    (["-af", "link"], ["packet"], FEW, ""),
    (["-aHflink"], ["packet"], ["-H", *FEW], ""),
    (["-a", "--family", "inet6"], [], ["-f", "inet6", *FEW], ""),
    (["-f", "netlink", "-a"], ["netlink"], FEW, ""),
    (["--family=unix", "-a"], ["unix"], FEW, ""),
    (["-f", "inet", "-a"], [], ["-f", "inet", *FEW], ""),
    (["-4a"], [], ["-4", *FEW], ""),
    (["-4ta"], ["tcp"], ["-4", *FEW], ""),
    *(([it, "-xa"], [], [it, *FEW, "-f", "unix"], "") for it in ("--ipv4", "--ipv6")),
    (["-f", "inet6", "-xa"], [], ["-f", "inet6", *FEW, "-f", "unix"], ""),
    (["-6uxa"], ["udp", "unix"], ["-6", *FEW, "-f", "unix"], ""),
    (["--json", "-l"], [], ["--json", *FEW], LISTENING),
    (["--every=5", "-a"], ["--every=5"], FEW, ""),
    *(([*it, "-t"], ["tcp"], FEW, CONNECTED, "dport = :443") for it in (
        ["dport", "=", ":443"], ["dport = :443"], ["dport", " =\t:443 "])),
    (["-t", "state", "all", "-H"], ["tcp"], ["-H", *FEW], "state all"),
    (["-l", "--", " excl closed"], [], FEW, "excl closed"),
    (["-l", "not", "autobound"], [], FEW, LISTENING, "not autobound"),
    (["exclude listening state", "closed dev 1"], [], FEW, "exclude listening state closed",
     "dev 1"),
    (["-a", "( dport = :443 or", "! src 10.0.0.0/8 )"], [], FEW, "",
     "( dport = :443 or ! src 10.0.0.0/8 )"),
    # Conditions apply to internet sockets only.
    (["-taxM", "fwmark", "1"], ["tcp", "mptcp"], FEW, "", "fwmark 1"),
    (["-6xua", "dev = 1"], ["udp"], ["-6", *FEW], "", "dev = 1"),
]
# Arguments with events or -K, and those that sockdump and, the last time, sslist get.
OTHERS = [
    (["-E"], ["--events"], FEW),
    (["-Et"], ["--events=tcp"], FEW),
    (["-u", "--events"], ["--events=udp"], FEW),
    (["-tuE", "-i"], ["--events"], ["-i"]),
    (["--events=tcp,udp"], ["--events"], FEW),
    (["--events=udp"], ["--events=udp"], FEW),
    # All events are in one state.
    (["-E", "state all dport", "=", ":443"], ["--events"], [*FEW, "--", "dport = :443"]),
    *((["-E", it], ["--events"], FEW) for it in ("-l", "state established")),
    # Without -a and -l, -K closes only connections.
    *(([f"-K{letters}", "--yes", "dport", "= :443"], [*kinds, "--", f"{states}dport = :443"],
       [*version, "--json", *FEW, "--", f"{states}dport = :443"])
      for letters, kinds, version, states in (
          ("", ["tcp", "udp"], [], f"{CONNECTED} "), ("4", ["tcp", "udp"], ["-4"], f"{CONNECTED} "),
          ("ua", ["udp"], [], ""), ("lt", ["tcp"], [], f"{LISTENING} "))),
]
# Words with names, and with numbers in their place. A name in braces is that of a service of TCP.
WORDS = [
    *((f"{field} = {it}", f"{field} = {it}") for field in ("sport", "dport") for it in (
        ":443", "443", "0x1bb")),
    *((f"sport {it} :443", f"sport {it} :443") for it in (
        "== eq != ne neq >= ge geq <= le leq > gt < lt".split())),
    ("sport = :{http} or dport {https}", "sport = :80 or dport 443"),
    ("sport != {www}", "sport != 80"),
    ("src :{ssh} or src = *:{ssh}", "src :22 or src = *:22"),
    ("dst 10.0.0.1:{http} dst [::1]:{ssh}", "dst 10.0.0.1:80 dst [::1]:22"),
    *((f"dst {it}", f"dst {it}") for it in (
        "[::1]", "10.0.0.0/8", "10.0.0.0/8:80", "[2001:db8::/32]", "2001:db8::/32",
        "[fe80::/64]:1", "*", "*:*")),
    ("dev lo and dev = lo or dev != lo", "dev 1 and dev = 1 or dev != 1"),
    ("dev 7 fwmark = 0x1/0x3 cgroup = 5", "dev 7 fwmark = 0x1/0x3 cgroup = 5"),
    ("not src one.example", "not src [192.0.2.1]"),
    ("src 1.example:22", "src [192.0.2.1]:22"),
    *((f"dst {it}", "dst *") for it in ("any", "all", "default")), ("src any:{http}", "src *:80"),
    ("dst 10/8 or src 193.233.7/24", "dst 10.0.0.0/8 or src 193.233.7.0/24"),
    ("dst 127.1 or dst 10:80", "dst 127.1.0.0 or dst 10.0.0.0:80"),
    ("src 1.2.3 or src 1.2.3.4", "src 1.2.3.0 or src 1.2.3.4"),
    ("dst 10.0.0.1: or src :", "dst 10.0.0.1: or src :"),
    ("src = one.example:{ssh} autobound", "src = [192.0.2.1]:22 autobound"),
    ("autobound dst many.example", "autobound ( dst [192.0.2.1] or dst [2001:db8::1] )"),
    ("( ! dst == many.example:80 )",
     "( ! ( dst == [192.0.2.1]:80 or dst == [2001:db8::1]:80 ) )"),
]
# The folder and the id of the control group that is the root of version 2, or None.
ROOT = next(filter(os.path.isdir, ("/sys/fs/cgroup/unified", "/sys/fs/cgroup")), None)
GROUP = os.stat(ROOT).st_ino if ROOT else None
WORDS += [("cgroup / or not cgroup = .", f"cgroup {GROUP} or not cgroup = {GROUP}"),
          (f"cgroup {ROOT}/", f"cgroup {GROUP}")] * bool(GROUP)
NO_ADDRESS = "no address, such as 192.0.2.0/24, [2001:db8::/32] or *:80"
# Words that are rejected, and the text.
NO_WORDS = [
    ("sport = :nope", "unknown service: nope"),
    *((f"sport {it}", f"unknown service: {it}") for it in ("nope", "-1", "+1")),
    ("dst 10.0.0.1:no\x1b", r"unknown service: no\x1b"),
    ("sport = = 5", "unknown service: ="),
    ("dport ( sport = 5", "unknown service: ("),
    ("sport = 443x", "unknown service: 443x"),
    ("dst none.example", "unknown host: none.example"),
    ("dst none.example:80", "unknown host: none.example"),
    *((f"dst {it}", f"unknown host: {it}") for it in (
        "a", "z", "A", "Z", "1.a", "1.Z", "z@", "a{")),
    ("dev = none", "unknown interface: none"),
    ("( dport = :443 and", "filter: the filter is not complete"),
    ("state", "filter: the filter is not complete"),
    ("dport = :443 a\x7f", r"filter: unexpected word: a\x7f"),
    *((f"dport = :443 {it}", f"filter: unexpected word: {it.split()[0]}") for it in (
        ")", "state established", "= 5")),
    *((f"dst {it}", f"filter: {NO_ADDRESS}: {it}") for it in (
        "0x7f", "1.2.", ".", "1.2.3.4.5", "a.1", "a.b.1", "-n.example", "none.example/24", "10./8", "@", "`",
        "{", "[a", "[a.b", "a]", "1.2.3.4/")),
    *((f"src {it}",
       f"an IPv6 address has brackets, such as [::1]:80 or [2001:db8::/32]: {it}") for it in (
        "::1", "fe80::1%lo", "::ffff:127.0.0.1")),
    ("dst != one.example", f"filter: {NO_ADDRESS}: !="),
    ("src = 1.2.3.4/33", f"filter: {NO_ADDRESS}: 1.2.3.4/33"),
    *((f"sport = {it}", f"filter: no port from 0 to 65535: {it}") for it in ("*", ":", ":*")),
    *((f"{it} :65536", "filter: no port from 0 to 65535: :65536") for it in (
        "sport", "dport =", "( dport", "sport >=", "sport !=", "sport <", "sport >", "sport gt",
        "dport leq", "! sport eq")),
    *((f"dev {it}", f"filter: no index of an interface from 0 to 4294967295: {it.split()[-1]}")
      for it in ("4294967296", "= 99999999999", "ne 010")),
    ("state 7", "filter: unknown state: 7"),
    *((f"{it} up", "filter: unknown state: up") for it in ("exclude", "excl")),
    ("cgroup = /none.slice", "unknown control group: /none.slice"),
    ("cgroup none.slice", "unknown control group: none.slice"),
    ("cgroup cgroup.procs", "unknown control group: cgroup.procs"),
    *((f"cgroup {it}", f"filter: no id of a control group: {it.split()[-1]}") for it in (
        f"{1 << 64}", f"= {1 << 64}")),
    ("fwmark x", "filter: no mark, such as 1 or 0x1/0x3: x"),
    ("state dst src", "unknown host: src"),
    (" ".join(129 * ["sport = 1"]), "filter: more than 256 conditions, operators and groups: 1"),
]
# Arguments that are rejected before a program starts, and the text.
KINDS = "tcp, udp, mptcp, raw, unix, packet, netlink, vsock, xdp"
REJECTED = [
    *((it, f"unknown kind; kinds are {KINDS}, inet and all{f': {name}' * bool(name)}")
      for it, name in (
        (["-A", "tcp,nope,x"], "nope,x"), (["-A", ""], ""), (["--query=tcp,"], ""),
        (["-Aal"], "al"), (["-A", "inet6"], "inet6"), (["--events="], ""),
        (["--events=none"], "none"), (["-A", "tc"], "tc"), (["-A", "tcpx"], "tcpx"))),
    *((it, f"unknown option: {option}") for it, option in (
        (["-F", "file"], "-F"), (["-tqh"], "-q"), (["-E=tcp"], "-="),
        (["--"[:1] + "\x1b"], r"-\x1b"))),
    *((it, f"unknown option, or one without its value: {option}") for it, option in (
        (["--nope", "--help"], "--nope"), (["-K", "dport = 1", "--nope"], "--nope"),
        (["--every", "1"], "--every"), (["--netns"], "--netns"), (["--tc"], "--tc"),
        (["--tcpx"], "--tcpx"), (["--utf8=1"], "--utf8=1"))),
    (["-E", "--every=1"], "-E takes no --every"),
    *((it, f"unknown family; families are inet, inet6, unix, link, netlink, vsock and xdp: {name}")
      for it, name in ((["-f", "tipc"], "tipc"), (["-ftcp"], "tcp"), (["--family=x"], "x"))),
    (["--events=unix"], "-E lists TCP and UDP sockets: -t and -u"),
    *(([it], "-A, -f and -N need a value") for it in (
        "-f", "-tA", "-N", "--net", "--family", "--query", "--socket")),
    *((["-E", it], "-E lists TCP and UDP sockets: -t and -u") for it in ("-x", "-M", "-w")),
    *((["-s", *it], "-s takes no --every, --json, -E and -K") for it in (
        ["--json"], ["-E"], ["--every=1"], ["-K", "dport = 1"])),
    (["--yes"], "--yes needs -K"),
    *((it, "-K needs a filter, such as dport = :443") for it in (
        ["-K"], ["--kill", "-tl"], ["-Ka", "--yes", "--"], ["-K", "", " \t\n"])),
    (["-K", "-x", "state", "established"], "-K closes TCP and UDP sockets: -t and -u"),
    (["-KM", "dport = 1"], "-K closes TCP and UDP sockets: -t and -u"),
    (["-K", "--every=1", "dport = 1"], "-K takes no --every and no -E"),
    (["-KE", "dport = 1"], "-K takes no --every and no -E"),
    # /run/netns/ and the name have 4096 bytes, and there is no space for the terminating NUL.
    (["-N", 4085 * "x"], "the name of the namespace is too long"),
    *((["-a", it], f"filter: unexpected word: {it[0]}") for it in ("-", "= 5")),
    *(([it, "dev lo"], "conditions such as dport select IPv4 and IPv6 sockets: -t, -u, -M, -w")
      for it in ("-0", "-4x", "--netlink", "-Avsock,xdp", "-0t")),
]


def capture(datagrams):
    """Returns a capture with these datagrams."""
    packets = [struct.pack("<4I", 1, 0, 16 + len(it), 16 + len(it)) + COOKED_HEADER + it
               for it in datagrams]
    return FILE_HEADER + b"".join(packets)


def inet_reply(local, peer, state=1, interface=0, cookie=1, inode=0):
    """Returns a reply about an IPv4 or IPv6 socket, whose retransmission timer is set."""
    family = socket.AF_INET6 if ":" in local[0] else socket.AF_INET
    ends = [socket.inet_pton(family, address).ljust(16, b"\0") for address, _ in (local, peer)]
    return (bytes([family, state, 1, 0]) + struct.pack(">HH", local[1], peer[1]) + ends[0]
            + ends[1] + struct.pack("<IQ5I", interface, cookie, 0, 0, 0, 0, inode))


def attribute(kind, payload):
    return struct.pack("<HH", 4 + len(payload), kind) + payload + bytes(-len(payload) % 4)


def dump(name, *replies):
    """Returns the datagrams of a request that sockdump sends, and of its answer."""
    requests = [body for kind, family, body in sockdump.REQUESTS
                if kind == name and (not replies or family == replies[0][0])]
    answers = [message(BY_FAMILY, 2, 1, 77, it) for it in replies]
    return [message(BY_FAMILY, DUMP, 1, 0, requests[0]), *answers,
            message(sockdump.DONE, 2, 1, 77, bytes(4))]


def service(port, protocol):
    """Returns how a port is shown: by its service, unless the kernel chooses such ports."""
    low, high = map(int, RANGE.read_text().split())
    with contextlib.suppress(OSError):
        if not low <= port <= high:
            return socket.getservbyport(port, protocol)
    return str(port)


@contextlib.contextmanager
def killing(process):
    """Kills a process after LIMIT, unless the block ends before."""
    limit = threading.Timer(LIMIT, os.kill, (process, signal.SIGKILL))
    limit.start()
    try:
        yield
    finally:
        limit.cancel()


class Runs:
    """A folder with the three programs, and runs of them."""

    def __init__(self, folder, socklist, sockdump_, sslist):
        self.folder = Path(folder)
        self.library = kernels.build(folder)
        self.program = self.folder / "socklist"
        self.programs = {"sockdump": sockdump_, "sslist": sslist}
        shutil.copy(socklist, self.program)
        self.use()

    def build(self, name, source):
        """Returns the path of the library of a text in C."""
        library = self.folder / name
        if not library.exists():
            subprocess.run([os.environ.get("CC", "cc"), "-shared", "-fPIC", "-o", library, "-x",
                            "c", "-", "-ldl"], input=source.encode(), check=True)
        return str(library)

    def use(self, **stand_ins):
        """Uses the programs, or the text of a script in the place of one."""
        for name, path in self.programs.items():
            (self.folder / name).unlink(missing_ok=True)
            if name in stand_ins:
                (self.folder / name).write_text(f"#!/bin/sh\n{stand_ins[name]}\n")
                (self.folder / name).chmod(0o755)
            else:
                (self.folder / name).symlink_to(os.path.abspath(path))

    def record(self, *datagrams):
        """Uses a sockdump that writes a capture with these datagrams."""
        (self.folder / "capture").write_bytes(capture(datagrams))
        self.use(sockdump=f"exec cat {self.folder}/capture")

    def kernel(self, file, **variables):
        """Returns the environment of a run with the replies of a file."""
        self.use()
        return kernels.environment(self.library, file, FAKE_KERNEL_ALONE="1", **variables)

    @contextlib.contextmanager
    def start(self, *arguments, **how):
        """Starts socklist, and ends it with the block, or after LIMIT."""
        how = {"stdout": subprocess.PIPE} | how
        with subprocess.Popen([self.program, *arguments], **how) as running, killing(running.pid):
            try:
                yield running
            finally:
                running.kill()

    def end(self, *arguments, under=(), **how):
        """Runs socklist, under another program if that is named. Returns its exit status, standard
        output and standard error."""
        how = {"stdout": subprocess.PIPE, "stderr": subprocess.PIPE, "timeout": LIMIT} | how
        done = subprocess.run([*under, self.program, *arguments], check=False, **how)
        written = None if done.stdout is None else done.stdout.decode()
        return done.returncode, written, done.stderr.decode()


def test_usage(runs):
    """Prints the usage and the version, and starts no program."""
    runs.use(sockdump="exit 9", sslist="exit 9")
    top = kernels.HERE.parent.parent
    version = (top / "VERSION").read_text()
    for argument in ("-V", "--version", "-xV"):
        compare(argument, runs.end("-t", argument, "--nope"), (0, f"socklist {version}", ""))
    for argument in ("-h", "--help", "-tnh"):
        status, usage, errors = runs.end("-K", argument, "-V")
        compare(argument, (status, usage[:16], errors), (0, "usage: socklist ", ""))
    # A word of the usage that the manual page lacks has a mistake.
    page = (top / "man/socklist.1").read_text("utf-8")
    lacks = {*re.findall(r"\w+", usage.lower())} - {*re.findall(r"\w+", page.lower())}
    compare("words of the usage", lacks, {"format"})


def passed(runs, *arguments, **how):
    """Returns how socklist ends, its standard error, and the arguments that both programs get."""
    names = ("sockdump", "sslist")
    runs.use(**{it: f'printf "%s\\n" "$@" >{runs.folder}/{it}.arguments' for it in names})
    files = [runs.folder / f"{it}.arguments" for it in names]
    for file in files:
        file.write_text("")
    status, _, errors = runs.end(*arguments, **how)
    return status, errors, *(list(filter(None, it.read_text().split("\n"))) for it in files)


def test_arguments(runs):
    """Compares the arguments that both programs get."""
    for arguments, *expected, words, conditions in (it + ("",) * (5 - len(it)) for it in ARGUMENTS):
        filters = f"{words} {conditions}".strip(), words
        expected = [it + ["--", text] * bool(text) for it, text in zip(expected, filters)]
        compare(f"{arguments}", passed(runs, *arguments), (0, "", *expected))
    for arguments, *expected in OTHERS:
        compare(f"{arguments}", passed(runs, *arguments), (0, "", *expected))


GETENT = """#!/bin/sh
echo "$*" >>{log}
case $2 in
    192.0.2.1) echo '192.0.2.1       example.org other.example.org' ;;
    2001:db8::1) printf '2001:db8::1     six\\033.example.org\\n' ;;
    192.0.2.[34]) echo '192.0.2.3  lost' && exit 1 ;;
    one.example | 1.example) printf '192.0.2.1       %s\\n' 'STREAM one.example' DGRAM RAW ;;
    many.example) printf '%s\\n' '192.0.2.1  STREAM it' '192.0.2.1  DGRAM' '2001:db8::1 STREAM' \\
        '2001:db8::1 RAW' 'fe80::1%lo STREAM' ;;
    lost.example) exit 3 ;;
    *) exit 2 ;;
esac
"""


@contextlib.contextmanager
def hosts(runs):
    """Uses a getent that has these hosts. Returns the file with the arguments that it got."""
    log, getent = runs.folder / "hosts", runs.folder / "getent"
    log.write_text("")
    getent.write_text(GETENT.format(log=log))
    getent.chmod(0o755)
    yield log
    getent.unlink()


def test_words(runs):
    """Compares the words that both programs get, and the texts of errors about names."""
    has_services = service(80, "tcp") == "http"
    with hosts(runs):
        for words, expected in WORDS:
            if "{" in words and not has_services:
                continue
            words, expected = re.sub("[{}]", "", words), ["--", f"state all {expected}".rstrip()]
            for arguments in ([f"state all {words}"], ["--", "state", "all", *words.split()]):
                compare(f"{arguments}", passed(runs, "-n", *arguments),
                        (0, "", expected, [*FEW, "--", "state all"]))
        for words, text in NO_WORDS:
            compare(words, passed(runs, words), (2, f"socklist: {text}{TRY}", [], []))
        compare("lost", passed(runs, "dst lost.example"), (1, "socklist: getent failed\n", [], []))


SERVICES = """# both 1/tcp
http 80/tcp www # web
both\t10/tcp
both 11/udp

only   12/udp
none
letters x/tcp
high 65536/tcp
last 13/tcp first second
last 13/udp
last 14/tcp
again 80/tcp
low 32767/tcp
chosen 32768/tcp
chosen 60999/tcp
above 61000/tcp
"""
# Ports of a protocol, and what the table shows in their place. Without the file that has them, the
# kernel chooses ports from 32768 to 60999.
SHOWN_PORTS = [
    ("tcp", {1: 1, 10: "both", 12: 12, 13: "last", 14: "last", 80: "http", 32767: "low",
             32768: 32768, 60999: 60999, 61000: "above"}),
    ("udp", {10: 10, 11: "both", 12: "only", 13: "last", 14: 14, 61000: 61000}),
    ("mptcp", {10: "both", 12: 12}), ("raw", {10: 10, 13: 13, 61000: 61000}),
]
TWO_PORTS = "-t or -u has to select one of the two ports of the service: both"
# Options, the name of a service of SERVICES, and its port, or an error.
PORTS = [
    ("-t", "both", 10), ("-u", "both", 11), ("-tu", "both", TWO_PORTS),
    ("-M", "both", 10), ("-M", "only", "unknown service: only"), ("-u", "only", 12),
    ("-wn", "only", 12), ("-tu", "second", 13), ("-u", "second", "unknown service: second"),
    ("-tu", "last", 13), ("-a", "both", TWO_PORTS), ("-w", "http", 80),
    *(("-t", it, f"unknown service: {it}") for it in (
        "none", "letters", "high", "web", "#", "tcp")),
]


def with_mounts(*mounts):
    """Returns a function that enters a mount namespace in which files or folders are in the place of
    others."""
    def enter():
        calls = ctypes.CDLL(None)
        if (calls.unshare(0x20000 | (0 if os.geteuid() == 0 else 0x10000000)) != 0
                or calls.mount(b"none", b"/", None, 0x44000, None) != 0
                or any(calls.mount(str(it).encode(), str(path).encode(), None, 0x1000, None) != 0
                       for it, path in mounts)):
            raise OSError("mount")
    return enter


def with_files(services, ports="/dev/null"):
    """Returns a function as with_mounts does, for /etc/services and RANGE."""
    return with_mounts((services, "/etc/services"), (ports, RANGE))


def test_services(runs):
    """Compares the ports of services, their names in the table, and the texts of errors."""
    file = runs.folder / "services"
    file.write_text(SERVICES)
    for letters, name, expected in PORTS:
        try:
            status, errors, words, _ = passed(runs, letters, f"state all sport = :{name}",
                                              preexec_fn=with_files(file))
        except subprocess.SubprocessError:
            print("socklist: skipped: services: no mount namespace, or no /etc/services")
            return
        if isinstance(expected, int):
            compare(f"{letters} {name}", (status, errors, words[-1:]),
                    (0, "", [f"state all sport = :{expected}"]))
        else:
            compare(f"{letters} {name}", (status, errors, words),
                    (2, f"socklist: {expected}{TRY}", []))
    for kind, ports in SHOWN_PORTS:
        runs.record(*dump(kind, *(inet_reply(("127.0.0.1", it), FAR) for it in ports)))
        status, table, errors = runs.end("-aH", preexec_fn=with_files(file))
        compare(kind, (status, [it.split()[6] for it in table.splitlines()], errors),
                (0, [f"127.0.0.1:{it}" for it in ports.values()], ""))
    # A raw socket has no port that the kernel chooses.
    chosen = runs.folder / "ports"
    chosen.write_text("1 10\n")
    runs.record(*dump("tcp", inet_reply(("127.0.0.1", 10), FAR)),
                *dump("raw", inet_reply(("127.0.0.1", 1), FAR)))
    table = runs.end("-aH", preexec_fn=with_files(file, chosen))[1]
    compare("chosen", [it.split()[6] for it in table.splitlines()],
            ["127.0.0.1:10", f"127.0.0.1:{PACKETS}"])
    # Without the files of names, ports are numbers, and no service is known.
    (runs.folder / "etc").mkdir()
    without = {"preexec_fn": with_mounts((runs.folder / "etc", "/etc"))}
    compare("no files", runs.end("-aH", **without), runs.end("-anH"))
    compare("no service", runs.end("-t", "sport = :http", **without),
            (2, "", f"socklist: unknown service: http{TRY}"))
    # This file cannot be read at its start.
    failing = "/proc/self/mem"
    for files, path, arguments in (
            ((failing,), "/etc/services", ["-ta"]), ((file, failing), RANGE, ["-ta"]),
            ((failing,), "/etc/services", ["-t", "sport = :x"])):
        status, _, errors = runs.end(*arguments, preexec_fn=with_files(*files))
        compare(f"{arguments}", (status, errors), (1, f"socklist: {path}: Input/output error\n"))
    for arguments in (["-tan"], ["-ta", "--json"], ["-s"]):
        compare(f"{arguments}", runs.end(*arguments, preexec_fn=with_files(failing, failing)),
                runs.end(*arguments))


def test_rejections(runs):
    """Rejects arguments before a program starts, or with the error of the program."""
    runs.use(sockdump="echo started >&2", sslist="echo started >&2")
    for arguments, text in REJECTED:
        compare(f"{arguments}", runs.end(*arguments), (2, "", f"socklist: {text}{TRY}"))
    runs.use()
    status, _, errors = runs.end("--every=0")
    assert status == 2 and errors.startswith(sockdump.SECONDS), f"--every=0: {status} {errors}"
    missing = "No such file or directory\n"
    compare("--netns", runs.end("--netns=/none"), (1, "", f"socklist: /none: {missing}"))
    for arguments in (["-N", "none"], ["-tNnone"], ["--net=none"], ["--net", "none"]):
        compare(f"{arguments}", runs.end(*arguments),
                (1, "", f"socklist: /run/netns/none: {missing}"))


def ephemeral_port():
    """Returns a port that the kernel chooses, of which a service has the number if there is one."""
    low, high = map(int, RANGE.read_text().split())
    services = Path("/etc/services")
    found = re.findall(r"(\d+)/tcp", services.read_text("utf-8")) if services.exists() else []
    return next((it for it in map(int, found) if low <= it <= high), low)


# The names that ss has for netlink protocols from 0 on, and for protocols of packet sockets.
NETLINK = """rtnl unused usersock fw tcpdiag nflog xfrm selinux iscsi audit fiblookup connector nft
    ip6fw dec-rt uevent genl 17 scsi-trans ecryptfs rdma crypto 22""".split()
PACKET = {
    0x0001: "802_3", 0x0002: "ax25", 0x0004: "802_2", 0x0005: "snap", 0x0006: "ddcmp",
    0x0007: "wan_ppp", 0x0008: "ppp_mp", 0x0009: "localtalk", 0x000c: "can", 0x0010: "ppptalk",
    0x0011: "tr_802_2", 0x0015: "mobitex", 0x0016: "control", 0x0017: "irda", 0x0018: "econet",
    0x0060: "loop", 0x0200: "pup", 0x0201: "pupat", 0x0800: "ip", 0x0805: "x25", 0x0806: "arp",
    0x0a00: "ieeepup", 0x0a01: "ieeepupat", 0x6000: "dec", 0x6001: "dna_dl", 0x6002: "dna_rc",
    0x6003: "dna_rt", 0x6004: "lat", 0x6005: "diag", 0x6006: "cust", 0x6007: "sca", 0x6558: "teb",
    0x8035: "rarp", 0x809b: "atalk", 0x80f3: "aarp", 0x8100: "802.1Q", 0x8137: "ipx",
    0x86dd: "ipv6", 0x8847: "mpls_uc", 0x8848: "mpls_mc", 0x884c: "atmmpoa", 0x8863: "ppp_disc",
    0x8864: "ppp_ses", 0x8884: "atmfate", 0x8892: "profinet", 0x88a2: "aoe", 0x88a4: "ethercat",
    0x88a8: "802.1ad", 0x88ca: "tipc", 0x88cc: "LLDP", 0: "0", 0xffff: "65535"}
# Reports memory errors and leaks of socklist, but not of what it runs.
VALGRIND = ("valgrind", "-q", "--leak-check=full", "--error-exitcode=99")
# How the protocol 1 is shown.
PACKETS = "icmp" if Path("/etc/protocols").exists() else 1
# An end of a connection, and an address that is wider than its column.
FAR = ("192.0.2.1", 443)
LONG = "2001:db8:1111:2222:3333:4444:5555:6666"


def shown_sockets(inode):
    """Returns for each of some sockets its kind, a reply, and its columns Local and Peer with -n. A
    service is in braces, as in {443/tcp}, and a number and its name, as in {0=rtnl}. The first
    socket, the UNIX and the XDP socket have this inode."""
    ends = ("127.0.0.1", 22), ("fe80::1", 53), ("10.0.0.1", ephemeral_port())
    return [
        ("tcp", inet_reply(ends[0], ("0.0.0.0", 0), 10, 1, inode=inode),
         "127.0.0.1%lo:{22/tcp} 0.0.0.0:*"),
        ("tcp", inet_reply(ends[2], FAR, interface=99),
         f"10.0.0.1%99:{{{ends[2][1]}/tcp}} 192.0.2.1:{{443/tcp}}"),
        ("udp", inet_reply(ends[1], ends[1], interface=1),
         "[fe80::1]%lo:{53/udp} [fe80::1]:{53/udp}"),
        ("udp", inet_reply((LONG, 53), (LONG, 53), interface=1),
         f"[{LONG}]%lo:{{53/udp}} [{LONG}]:{{53/udp}}"),
        ("mptcp", inet_reply(("127.0.0.1", 80), FAR), "127.0.0.1:{80/tcp} 192.0.2.1:{443/tcp}"),
        ("raw", inet_reply(("127.0.0.1", 1), ("192.0.2.1", 253)),
         f"127.0.0.1:{{1={PACKETS}}} 192.0.2.1:253"),
        ("raw", inet_reply(("127.0.0.1", 0), FAR), "127.0.0.1:* 192.0.2.1:443"),
        ("unix", struct.pack("<BBBBIQ", 1, 1, 1, 0, inode, 2) + attribute(0, "/猫:22%1\0".encode()),
         "/猫:22%1 *"),
        *(("netlink", struct.pack("<4B4IQ", 16, 3, protocol, 7, port, 0, 0, 5, 3), f"{local} *")
          for protocol, port, local in (
              *((it, 0, f"{{{it}={name}}}:{{0=kernel}}") for it, name in enumerate(NETLINK)),
              (16, os.getpid(), f"{{16=genl}}:{{{os.getpid()}={own_name()}/{os.getpid()}}}"),
              (4, 1 << 31, "{4=tcpdiag}:2147483648"), (17, 3 << 30, "17:3221225472"))),
        ("packet", struct.pack("<BBHIQ", 17, 2, 1, 6, 4)
         + attribute(0, struct.pack("<6I", 1, 0, 0, 0, 0, 0)), "{1=802_3}:lo *"),
        *(("packet", struct.pack("<BBHIQ", 17, 3, number, 6, 4)
           + attribute(0, struct.pack("<6I", index, 0, 0, 0, 0, 0)),
           f"{protocol}:{interface} *")
          for number, protocol, index, interface in (
              (3, "*", 1, "lo"), (3, "*", 0, "*"),
              *((it, f"{{{it}={PACKET[it]}}}", 1, "lo") for it in PACKET))),
        ("xdp", struct.pack("<BBHIQ", 44, 3, 0, inode, 5) + attribute(1, struct.pack("<2I", 1, 22)),
         "lo:22 *"),
    ]


def dumps(sockets):
    """Returns the datagrams with the replies of sockets."""
    found = []
    for kind, rows in itertools.groupby(sockets, key=lambda it: it[0]):
        found += dump(kind, *(reply for _, reply, _ in rows))
    return found


def with_names(text, is_numeric):
    """Replaces what is in braces by its name or its number."""
    text = re.sub(r"\{(\d+)/(\w+)\}",
                  lambda it: it[1] if is_numeric else service(int(it[1]), it[2]), text)
    return re.sub(r"\{(\d+)=(.*?)\}", lambda it: it[1 if is_numeric else 2], text)


def own_name():
    """Returns the name of this process."""
    return Path("/proc/self/comm").read_text().rstrip("\n")


def test_table(runs):
    """Compares the columns of sockets of all kinds, with and without names and processes."""
    with socket.socket() as opened:
        sockets = shown_sockets(os.fstat(opened.fileno()).st_ino)
        runs.record(*dumps(sockets))
        users = f'users:(("{own_name()}",pid={os.getpid()},fd={opened.fileno()}))'
        for arguments in (["-a"], ["-an"], ["-anp"], ["-ap", "-O"], ["-ane"], ["-aneOp"]):
            status, table, errors = runs.end("--utf8", *arguments)
            compare(f"{arguments}", (status, errors), (0, ""))
            lines = [it for it in table.splitlines()[1:] if not it.startswith("\t")]
            letters = "".join(arguments)
            for line, (kind, _, ends) in zip(lines, sockets, strict=True):
                rest = line.split()[6:]
                compare(f"{arguments} {kind}", " ".join(rest[:2]),
                        with_names(ends, "n" in letters))
                # A character of the name of the UNIX socket has two columns.
                compare(f"{arguments} {kind}", f" {rest[0]:30} {rest[1]} " in f"{line} ",
                        kind != "unix")
                has_users = "p" in letters and (line == lines[0] or kind in ("unix", "xdp"))
                compare(f"{arguments} {kind}", rest[2:3] == [users], has_users)
                compare(f"{arguments} {kind}", len(rest) > 2 + has_users,
                        "e" in letters and "O" in letters)
            compare(f"{arguments}", "\n\t" in table, "e" in letters and "O" not in letters)
            if "p" in letters:
                heading = table.splitlines()[0]
                compare("heading", heading.index("Process"), lines[0].index("users:"))
        users = [bool(json.loads(it)["processes"])
                 for it in runs.end("-ap", "--json")[1].splitlines()]
        compare("--json", users, [it == 0 or row[0] in ("unix", "xdp")
                                  for it, row in enumerate(sockets)])
        for letter, name in ("n", "--numeric"), ("p", "--processes"):
            compare(name, runs.end("-a", name), runs.end(f"-a{letter}"))


# Fields of struct tcp_info by their offsets: names and units, most of which are times and rates.
UNITS = {8: "rto us", 12: "ato us", 44: "lastsnd ms", 52: "lastrcv ms", 56: "lastack ms",
         68: "rtt us", 72: "rttvar us", 80: "cwnd", 92: "rcv_rtt us", 104: "pacing_rate B/s",
         112: "max_pacing_rate B/s", 148: "minrtt us", 160: "delivery_rate B/s", 168: "busy us",
         176: "rwnd_limited us", 184: "sndbuf_limited us", 244: "total_rto_time ms"}


def test_units(runs):
    """Times and rates of a TCP connection have units."""
    info = b"".join(struct.pack("<I", it if it in UNITS else 0) for it in range(0, 248, 4))
    bbr = struct.pack("<5I", 9, 0, 31, 739, 739)
    runs.record(*dump("tcp", inet_reply(FAR, FAR) + attribute(2, info) + attribute(16, bbr)))
    expected = [f"{text.partition(' ')[0]}:{at}{text.partition(' ')[2]}"
                for at, text in UNITS.items()]
    for arguments in (["-tinH"], ["-tinHO"]):
        status, table, errors = runs.end(*arguments)
        compare(f"{arguments}", (status, errors, table.split()[8:]), (0, "", [
            *expected, "bbr:(bw:9B/s,mrtt:31us,pacing_gain:739/256,cwnd_gain:739/256)"]))


def test_control_group(runs):
    """The details have the path of a control group for a user who may open it by its id."""
    group = GROUP or 1
    runs.record(*dump("tcp", inet_reply(FAR, FAR) + attribute(21, struct.pack("<Q", group))))
    capabilities = re.search(r"CapEff:\t(\w+)", Path("/proc/self/status").read_text("utf-8"))[1]
    may_open = GROUP and int(capabilities, 16) >> 2 & 1
    for arguments in ("-teHO", "-tenHO"):
        compare(arguments, runs.end(arguments)[1].split()[-1],
                f"cgroup:{'/' if may_open else group}")
    runs.record(*dump("tcp", *30 * [inet_reply(FAR, FAR) + attribute(21, struct.pack("<Q", 7))]))
    for target, shown in ("", "/"), ("/a.slice/b\\\x1b", r"/a.slice/b\x5c\x1b"):
        status, table, errors = runs.end("-teHO", env=stand_ins(runs, 0, f"{ROOT}{target}"),
                                         preexec_fn=with_descriptors(20))
        compare(target, (status, {it.split()[-1] for it in table.splitlines()}, errors),
                (0, {f"cgroup:{shown if ROOT else 7}"}, ""))
    compare("elsewhere", runs.end("-teHO", env=stand_ins(runs, 0, "/a"))[1].split()[-1], "cgroup:7")
    runs.record(*dump("tcp", inet_reply(FAR, FAR) + attribute(21, b"\xff" * 8)))
    for environment in (None, stand_ins(runs, 0, ROOT or "")):
        compare("no group", runs.end("-teHO", env=environment)[1].split()[-1],
                f"cgroup:{2 ** 64 - 1}")


# Folders in that of control groups; words, and the folders whose inodes are in their place; and
# folders of a control group, and what is shown.
GROUPS = [
    (("a", "b", "unified/a"),
     (("a", "unified/a"), ("b", "b"), ("/sys/fs/cgroup/a", "a"), ("/", "unified")),
     (("/sys/fs/cgroup/unified/x", "/x"), ("/sys/fs/cgroup/x", "7"))),
    (("a",), (("a", "a"), ("/", "."), ("/sys/fs/cgroup/a", "a")), (("/sys/fs/cgroup/x", "/x"),)),
]


def test_groups(runs):
    """Finds control groups with and without the hierarchies of version 1."""
    for number, (folders, words, targets) in enumerate(GROUPS):
        top = runs.folder / f"groups{number}"
        for it in folders:
            (top / it).mkdir(parents=True)
        how = {"preexec_fn": with_mounts((top, "/sys/fs/cgroup"))}
        try:
            found = [passed(runs, "-ta", f"cgroup {word}", **how) for word, _ in words]
        except subprocess.SubprocessError:
            print("socklist: skipped: control groups: no mount namespace, or no /sys/fs/cgroup")
            return
        compare(f"{folders}", [it[2][-1:] for it in found],
                [[f"cgroup {(top / it).stat().st_ino}"] for _, it in words])
        runs.record(*dump("tcp", inet_reply(FAR, FAR) + attribute(21, struct.pack("<Q", 7))))
        for target, shown in targets:
            table = runs.end("-teHO", env=stand_ins(runs, 0, target), **how)[1]
            compare(target, table.split()[-1], f"cgroup:{shown}")


def test_both_versions(runs):
    """The address of all interfaces is an asterisk if an IPv6 socket also accepts IPv4, with any
    options."""
    sockets = ((81, 0, b"\0"), (82, 0, b"\1"), (83, 1, b"\0"))
    runs.record(*dump("tcp", *(inet_reply(("::", port), ("::", 0), 10, interface)
                               + attribute(11, only) for port, interface, only in sockets)))
    for arguments in (["-tanH"], ["-tlnpH"], *([f"-tan{it}OH"] for it in "omie")):
        status, table, errors = runs.end(*arguments)
        compare(f"{arguments}", (status, errors, [it.split()[6:8] for it in table.splitlines()]),
                (0, "", [["*:81", "*:*"], ["[::]:82", "[::]:*"], ["*%lo:83", "*:*"]]))
    runs.record(*dump("tcp", inet_reply(("::", 81), ("::", 0), 10)))
    compare("no attribute", runs.end("-tanH")[1].split()[6:8], ["*:81", "*:*"])


def test_columns(runs):
    """A table without names and processes is the one of sslist, byte for byte, in several lists and
    with the lines of requests."""
    runs.record(*2 * dumps(shown_sockets(1)))
    expected = subprocess.run(
        [runs.folder / "sslist", "-omie", "--requests", "--utf8", runs.folder / "capture"],
        stdout=subprocess.PIPE, check=True).stdout.decode()
    assert expected, "sslist prints nothing"
    expected = expected.replace("%1:", "%lo:").replace(" 1:22", " lo:22")
    expected = re.sub(r"(p_\w+ .* \d+:)1 ", r"\1lo", expected)
    expected = re.sub(r"(p_\w+ .*) 3:", r"\1 *:", expected)
    found = runs.end("-anomie", "--requests", "--utf8")
    compare("columns", (found[0], re.sub(" +", " ", found[1]), found[2]),
            (0, re.sub(" +", " ", expected), ""))
    objects = subprocess.run([runs.folder / "sslist", "--json", runs.folder / "capture"],
                             stdout=subprocess.PIPE, check=True).stdout.decode()
    compare("--json", runs.end("-a", "--json"), (0, objects, ""))
    unchanged = [[it for it in table.splitlines() if re.match("Netid|u_str|nl|[\t=-]", it)]
                 for table in (found[1], expected)]
    compare("unchanged lines", *unchanged)


def with_range(low, high):
    """Returns a function that enters a network namespace where the kernel chooses these ports."""
    def enter():
        if ctypes.CDLL(None).unshare(0x40000000 | (0 if os.geteuid() == 0 else 0x10000000)) != 0:
            raise OSError("unshare")
        RANGE.write_text(f"{low} {high}\n", "ascii")
    return enter


def test_ports(runs):
    """A port that the kernel chooses has no name of a service, from the first to the last one."""
    ports = (it for it in range(1024, 1 << 16) if service(it, "tcp") != str(it))
    names = {it: service(it, "tcp") for it in itertools.islice(ports, 5)}
    if len(names) < 5:
        print("socklist: skipped: ports that the kernel chooses: no services")
        return
    _, low, _, high, _ = ports = sorted(names)
    runs.record(*dump("tcp", *(inet_reply(("127.0.0.1", it), FAR) for it in ports)))
    try:
        found = runs.end("-taH", preexec_fn=with_range(low, high))
    except subprocess.SubprocessError:
        print("socklist: skipped: ports that the kernel chooses: no network namespace")
        return
    shown = [it.split()[6] for it in found[1].splitlines()]
    expected = [str(it) if low <= it <= high else names[it] for it in ports]
    compare("ports", shown, [f"127.0.0.1:{it}" for it in expected])


def test_hosts(runs):
    """With -r, shows the names of hosts that getent finds, each of which it looks up once."""
    one, other, none, any_ = ((it, 22) for it in ("192.0.2.1", "192.0.2.3", "192.0.2.2", "0.0.0.0"))
    six, mapped, any_six = ("2001:db8::1", 22), ("::ffff:192.0.2.1", 22), ("::", 22)
    runs.record(*dump("tcp", inet_reply(("192.0.2.12", 22), any_),
                      inet_reply(one, none, interface=1), inet_reply(none, one),
                      inet_reply(any_, any_), inet_reply(("0.0.0.1", 22), any_)),
                *dump("tcp", *(inet_reply(it, any_six) for it in (
                    six, mapped, ("::ffff:1:0:0", 22)))))
    with hosts(runs) as log:
        status, table, errors = runs.end("-tanrH")
        found = log.read_text().splitlines()
        log.unlink()
        assert runs.end("-tan")[0] == 0 and not log.exists(), "getent runs without -r"
        compare("hosts", (status, errors, [it.split()[6:8] for it in table.splitlines()]), (0, "", [
            ["192.0.2.12:22", "0.0.0.0:22"],
            ["example.org%lo:22", "192.0.2.2:22"], ["192.0.2.2:22", "example.org:22"],
            ["0.0.0.0:22", "0.0.0.0:22"], ["0.0.0.1:22", "0.0.0.0:22"],
            [r"six\x1b.example.org:22", "*:22"],
            ["example.org:22", "*:22"], ["[::ffff:1:0:0]:22", "*:22"]]))
        compare("getent", found, [f"hosts {it}" for it in (
            "192.0.2.12", "192.0.2.1", "192.0.2.2", "0.0.0.1", "2001:db8::1", "::ffff:1:0:0")])
        runs.record(*dump("tcp", inet_reply(other, ("192.0.2.4", 22)), inet_reply(one, none)))
        failed = "socklist: getent failed\n"
        compare("getent fails", runs.end("-taHr")[::2], (1, failed))
    missing = "socklist: getent: No such file or directory\n"
    (runs.folder / "cats").mkdir()
    (runs.folder / "cats/cat").symlink_to(shutil.which("cat"))
    found = runs.end("-taHr", env=os.environ | {"PATH": f"{runs.folder}/cats"})
    compare("getent is missing", found[::2], (1, missing + failed))


# Sockets that are counted: the kind and the reply.
COUNTED = [
    *(("tcp", inet_reply(("127.0.0.1", 1), FAR, state, inode=inode)) for state, inode in (
        (1, 5), (1, 0), (2, 6), (3, 0), (4, 0), (5, 0), (6, 0), (7, 7), (8, 8), (9, 0), (10, 9),
        (11, 0), (11, 10))),
    *(("tcp", inet_reply(("::1", 1), ("::1", 1), state)) for state in (1, 6)),
    # A connection in FIN-WAIT-2 with the timer of TIME-WAIT.
    ("tcp", bytes([2, 5, 3]) + inet_reply(("127.0.0.1", 1), FAR)[3:]),
    ("udp", inet_reply(("127.0.0.1", 1), FAR)),
    *(("udp", inet_reply((it, 1), ("::", 0), 7)) for it in ("::1", "::")),
    ("mptcp", inet_reply(("127.0.0.1", 1), FAR)), ("raw", inet_reply(("127.0.0.1", 1), FAR)),
    *(("unix", struct.pack("<BBBBIQ", 1, kind, 1, 0, 7, 2)) for kind in (1, 2, 5, 9)),
    ("netlink", struct.pack("<4B4IQ", 16, 3, 0, 7, 0, 0, 0, 5, 3)),
    *(("packet", struct.pack("<BBHIQ", 17, kind, 3, 6, 4)) for kind in (2, 3)),
    *(("vsock", struct.pack("<BBBB5IQ", 40, kind, 1, 0, 2, 1, 2, 2, 7, 6)) for kind in (1, 5)),
    *(("xdp", struct.pack("<BBHIQ", 44, 3, 0, 7, 5)) for _ in range(3)),
]
SUMMARY = """\
Total: 29
TCP:   16 (estab 4, closed 1, orphaned 4, timewait 3)

Transport Total     IP        IPv6
RAW       1         1         0
UDP       3         1         2
TCP       11        10        1
MPTCP     1         1         0
INET      16        13        3
UNIX      4
PACKET    2
NETLINK   1
VSOCK     2
XDP       3
"""


def test_summary(runs):
    """Counts the sockets, without a table."""
    counted = [list(rows) for _, rows in itertools.groupby(
        COUNTED, key=lambda it: (it[0], it[1][0]))]
    runs.record(*(it for rows in counted for it in dump(rows[0][0], *(row[1] for row in rows))))
    compare("-s", runs.end("-s"), (0, SUMMARY, ""))
    compare("--summary", runs.end("--summary", "-noiemp"), (0, SUMMARY, ""))
    for arguments, total in (("-sl", "Total: 10"), ("-s4", "Total: 14")):
        compare(arguments, runs.end(arguments)[1].split("\n")[0], total)
    for arguments, rows in (("-sutx", ["UDP", "TCP", "INET", "UNIX"]), ("-sx", ["INET", "UNIX"]),
                            ("-sMw", ["RAW", "MPTCP", "INET"]), ("-s0", ["INET", "PACKET"])):
        table = runs.end(arguments)[1].splitlines()[4:]
        compare(arguments, [it.split()[0] for it in table], rows)


# Names of processes: the bytes, what the table shows, and the member of JSON.
NAMES = [
    # The longest one.
    (b"fifteen chars!~", "fifteen chars!~", {"name": "fifteen chars!~"}),
    (b'"\\\t\x1f\x7f', r"\x22\x5c\x09\x1f\x7f", {"name": '"\\\t\x1f\x7f'}),
    (b"a\n", r"a\x0a", {"name": "a\n"}),
    ("ä猫".encode(), r"\xc3\xa4\xe7\x8c\xab", {"name": "ä猫"}),
    (b"\xf0\x9f\x90\xb1", r"\xf0\x9f\x90\xb1", {"name": "\U0001f431"}),
    # The first and the last character of each form of UTF-8.
    *((it.encode(), "".join(rf"\x{byte:02x}" for byte in it.encode()), {"name": it}) for it in (
        "\u0080\u07ff", "\u0800\u0fff", "\u1000\ucfff", "\ud000\ud7ff", "\ue000\uffff",
        "\U00010000\U0003ffff", "\U00040000\U000fffff", "\U00100000\U0010ffff")),
    (b"\xe7\x8c", r"\xe7\x8c", {"name_hex": "e78c"}),
]
# Names that are not valid UTF-8: too few bytes, too many, a surrogate, above U+10FFFF, and a later
# byte that is out of range.
INVALID = [
    b"\x01\xff", b"\xc3", b"\xf0\x9f\x90", b"\x80", b"\xc0\x80", b"\xc1\xbf", b"\xf5\x80\x80\x80",
    b"\xe0\x9f\x80", b"\xe0\xc0\x80", b"\xed\x7f\x80", b"\xed\xa0\x80", b"\xf0\x8f\x80\x80",
    b"\xf0\xc0\x80\x80", b"\xf4\x7f\x80\x80", b"\xf4\x90\x80\x80", b"\xe7\x8c\x7f",
    b"\xe7\x8c\xc0", b"\xf0\x9f\x90\x7f",
    *(bytes([first, second, 0x80, 0x80][:length]) for first, length in (
        (0xc2, 2), (0xdf, 2), (0xe1, 3), (0xec, 3), (0xee, 3), (0xef, 3), (0xf1, 4), (0xf3, 4))
      for second in (0x7f, 0xc0))]


def with_descriptors(most):
    """Returns a function that limits the number of descriptors."""
    return lambda: resource.setrlimit(resource.RLIMIT_NOFILE, (most, most))


def compare_users(runs, shown, member, users):
    """Compares the processes of a socket, the first of which has this name, in the table and as
    JSON. Another socket has no process."""
    status, table, errors = runs.end("-aHp")
    text = ",".join(f'("{name}",pid={pid},fd={fd})' for name, pid, fd in users)
    compare(f"{shown}", (status, errors, re.findall("users:(.*)", table)),
            (0, "", [f"({text})"]))
    status, objects, errors = runs.end("-ap", "--json")
    found = [json.loads(it)["processes"] for it in objects.splitlines()]
    expected = [(member if name == shown else {"name": name}) | {"pid": pid, "fd": fd}
                for name, pid, fd in users]
    compare(f"{shown}", (status, errors, found), (0, "", [expected, []]))


def test_processes(runs):
    """Shows a socket that two processes have, one of them twice, and the other with each name."""
    comm = Path("/proc/self/comm")
    before = comm.read_bytes().rstrip(b"\n")
    with socket.socket() as opened, contextlib.ExitStack() as ended:
        number = opened.fileno()
        ended.callback(os.close, os.dup2(number, 99))
        child = ended.enter_context(subprocess.Popen(["sleep", str(LIMIT)], pass_fds=[number, 99]))
        ended.callback(child.kill)
        ended.callback(comm.write_bytes, before)
        runs.record(*dump("tcp", inet_reply(FAR, FAR, inode=os.fstat(number).st_ino),
                          inet_reply(FAR, FAR)))
        for name, shown, member in NAMES:
            comm.write_bytes(name)
            users = [(shown, os.getpid(), fd) for fd in (number, 99)]
            users += [("sleep", child.pid, fd) for fd in (number, 99)]
            compare_users(runs, shown, member, sorted(users, key=lambda it: it[1:]))
        for name in INVALID:
            comm.write_bytes(name)
            compare(f"{name}", re.findall('"name_hex":"(.*?)","pid"', runs.end("-ap", "--json")[1]),
                    2 * [name.hex()])
        expected = runs.end("-aHp")
        assert "users:" in expected[1], expected
        for most in range(4, 12):
            found = runs.end("-aHp", preexec_fn=with_descriptors(most))
            assert found == expected or found[0] != 0 and found[2], f"{most}: {found}"
        status, objects, _ = runs.end("-a", "--json")
        assert status == 0 and objects and "processes" not in objects, objects
        comm.write_bytes(b'fifteen chars\x1b"')
        runs.record(*dump("netlink", struct.pack("<4B4IQ", 16, 3, 0, 7, os.getpid(), 0, 0, 5, 3)))
        table = runs.end("-aH")[1]
        assert rf" rtnl:fifteen chars\x1b\x22/{os.getpid()} " in table, table


def test_order(runs):
    """Finds the processes of sockets whose descriptors are not in the order of their inodes, of which
    some are above 2^31."""
    with contextlib.ExitStack() as ended:
        opened = [ended.enter_context(socket.socket()) for _ in range(9)]
        for number, it in enumerate(reversed(opened), 100):
            ended.callback(os.close, os.dup2(it.fileno(), number))
        runs.record(*dump("tcp", *(inet_reply(FAR, FAR, inode=high(it)) for it in opened)))
        status, table, errors = runs.end("-aHp", env=stand_ins(runs, errno.ESRCH))
        compare("order", (status, errors, re.findall(r"fd=(\d+)\),.*fd=(\d+)\)\)\n", table)),
                (0, "", [(str(it.fileno()), str(108 - number))
                         for number, it in enumerate(opened)]))


# A library with which names of processes and interfaces cannot be read, with an error number; each
# control group is the folder TARGET, but only the group 7 can be opened by its id; sockets have the
# inodes of `high`; and the clock that can be set is set back at each call.
STAND_INS = """
#define _GNU_SOURCE
#include <errno.h>
#include <fcntl.h>
#include <stdio.h>
#include <stdlib.h>
#include <string.h>
#include <sys/syscall.h>
#include <time.h>
#include <unistd.h>

int openat(int folder, const char *path, int flags, ...) {
    errno = atoi(getenv("NUMBER"));
    return strcmp(path, "../comm") == 0 ? -1 : (int)syscall(SYS_openat, folder, path, flags, 0);
}

int open_by_handle_at(int mount, struct file_handle *handle, int flags) {
    static const unsigned char id[8] = {7};
    const int is_known = mount >= 0 && handle->handle_bytes == 8 && handle->handle_type == 0xfe
        && memcmp(handle->f_handle, id, 8) == 0;
    return is_known ? open("/", flags) : -1;
}

unsigned if_nametoindex(const char *name) {
    errno = atoi(getenv("NUMBER"));
    return 0 * *name;
}

char *if_indextoname(unsigned index, char *name) {
    errno = atoi(getenv("NUMBER"));
    return index > 0 ? NULL : name;
}

ssize_t readlink(const char *path, char *target, size_t size) {
    const char *group = getenv("TARGET");
    if (strncmp(path, "/proc/self/fd/", 14) != 0 || path[14] == '-')
        return syscall(SYS_readlink, path, target, size);
    memset(target, 'x', size);
    memcpy(target, group, strlen(group));
    return (ssize_t)strlen(group);
}

ssize_t readlinkat(int folder, const char *path, char *target, size_t size) {
    char link[64] = "";
    unsigned inode;
    if (syscall(SYS_readlinkat, folder, path, link, sizeof link - 1) < 0)
        return -1;
    if (sscanf(link, "socket:[%u", &inode) == 1)
        sprintf(link, "socket:[%u]", inode | inode % 2 << 31);
    memcpy(target, link, size < sizeof link ? size : sizeof link);
    return (ssize_t)strlen(link);
}

int clock_gettime(clockid_t clock, struct timespec *time) {
    static time_t back;
    const int failed = (int)syscall(SYS_clock_gettime, clock, time);
    time->tv_sec -= clock == CLOCK_REALTIME ? back += 1000 : 0;
    return failed;
}
"""


def high(opened):
    """Returns the inode that a socket has with STAND_INS: if it is odd, it is above 2^31."""
    inode = os.fstat(opened.fileno()).st_ino
    return inode | inode % 2 << 31


def stand_ins(runs, number=0, target=""):
    """Returns the environment of a run with STAND_INS, an error number and a folder."""
    return os.environ | {"LD_PRELOAD": runs.build("stand_ins.so", STAND_INS), "NUMBER": f"{number}",
                         "TARGET": target}


def failing(runs, call="", number=1, environment=os.environ, error=errno.EIO):
    """Returns an environment with FAILING, a function, which of its calls fails, and the error."""
    libraries = f"{runs.build('failing.so', FAILING)} {environment.get('LD_PRELOAD', '')}"
    return environment | {"LD_PRELOAD": libraries, "CALL": call, "NUMBER": f"{number}",
                          "ERROR": f"{error}"}


# A library with which one call of a function fails in socklist: the first, the second and so on. At
# its end it reports descriptors that are still open, and a program that was not waited for.
FAILING = """
#define _GNU_SOURCE
#include <dirent.h>
#include <dlfcn.h>
#include <errno.h>
#include <fcntl.h>
#include <poll.h>
#include <stdarg.h>
#include <stdio.h>
#include <stdlib.h>
#include <string.h>
#include <sys/wait.h>
#include <unistd.h>

static int fails(const char *name) {
    static int calls;
    if (strcmp(program_invocation_short_name, "socklist") != 0 || strcmp(getenv("CALL"), name) != 0
        || ++calls != atoi(getenv("NUMBER")))
        return 0;
    errno = atoi(getenv("ERROR"));
    return 1;
}

#define WRAP(type, failed, name, parameters, arguments) \\
    type name parameters { \\
        type(*real) parameters = (type(*) parameters)dlsym(RTLD_NEXT, #name); \\
        return fails(#name) ? failed : real arguments; \\
    }
WRAP(pid_t, -1, fork, (void), ())
WRAP(pid_t, -1, getppid, (void), ())
WRAP(pid_t, -1, waitpid, (pid_t process, int *status, int how), (process, status, how))
WRAP(int, -1, pipe2, (int *ends, int flags), (ends, flags))
WRAP(int, -1, memfd_create, (const char *name, unsigned flags), (name, flags))
WRAP(int, -1, dup2, (int one, int other), (one, other))
WRAP(int, -1, poll, (struct pollfd *waits, nfds_t count, int time), (waits, count, time))
WRAP(off_t, -1, lseek, (int file, off_t to, int from), (file, to, from))
WRAP(ssize_t, -1, read, (int file, void *bytes, size_t count), (file, bytes, count))
WRAP(ssize_t, -1, readlinkat, (int file, const char *name, char *bytes, size_t count),
     (file, name, bytes, count))
WRAP(DIR *, NULL, opendir, (const char *path), (path))
WRAP(struct dirent *, NULL, readdir, (DIR *folder), (folder))
WRAP(void *, NULL, realloc, (void *memory, size_t size), (memory, size))

static int are_open[64];

__attribute__((constructor)) static void start(void) {
    int file;
    for (file = 0; file < 64; file++)
        are_open[file] = fcntl(file, F_GETFD, 0) >= 0;
}

__attribute__((destructor)) static void end(void) {
    int file;
    if (strcmp(program_invocation_short_name, "socklist") != 0)
        return;
    for (file = 0; file < 64; file++)
        if (!are_open[file] && fcntl(file, F_GETFD, 0) >= 0)
            dprintf(STDERR_FILENO, "descriptor %d is open\\n", file);
    if ((strcmp(getenv("CALL"), "waitpid") != 0 || atoi(getenv("ERROR")) == EINTR)
        && waitpid(-1, NULL, WNOHANG) >= 0)
        dprintf(STDERR_FILENO, "a program has not ended\\n");
}

int prctl(int option, ...) {
    (void)option;
    return fails("prctl") ? -1 : 0;
}

/* Netlink has no flags for sending. */
ssize_t send(int file, const void *bytes, size_t size, int flags) {
    ssize_t (*real)(int, const void *, size_t, int) =
        (ssize_t(*)(int, const void *, size_t, int))dlsym(RTLD_NEXT, "send");
    return flags == 0 ? real(file, bytes, size, flags) : -1;
}

/* An answer may be too short for an error number. */
ssize_t recv(int file, void *bytes, size_t size, int flags) {
    ssize_t (*real)(int, void *, size_t, int) = (ssize_t(*)(int, void *, size_t, int))dlsym(
        RTLD_NEXT, "recv");
    const ssize_t length = real(file, bytes, size, flags);
    return fails("recv") ? 19 : length;
}

int fcntl(int file, int command, ...) {
    int (*real)(int, int, ...) = (int (*)(int, int, ...))dlsym(RTLD_NEXT, "fcntl");
    va_list more;
    va_start(more, command);
    const int argument = va_arg(more, int);
    va_end(more);
    return command == F_DUPFD_CLOEXEC && fails("fcntl") ? -1 : real(file, command, argument);
}
"""
KILL = ["-K", "--yes", "sport 1"]
NOT_CLOSED = "socklist: nothing was closed, since not all sockets were listed\n"
# Arguments, a function, which of its calls fails, and what the error begins with.
FAILURES = [
    *(([], *it) for it in (
        ("fork", 1, "fork"), ("fork", 2, "fork"), ("pipe2", 1, "pipe"), ("pipe2", 2, "pipe"),
        ("poll", 1, "poll"), ("read", 1, "read"), ("waitpid", 1, "waitpid"),
        ("waitpid", 2, "waitpid"))),
    *((KILL, *it) for it in (
        ("memfd_create", 1, "memfd_create"), ("fork", 1, "fork"), ("waitpid", 1, "waitpid"))),
    *((["-ap"], it, 1, "/proc") for it in ("opendir", "readdir", "readlinkat")),
    (["-ap"], "opendir", 2, f"/proc/{min(map(int, filter(str.isdigit, os.listdir('/proc'))))}/fd"),
    (["-atr"], "fcntl", 1, "fcntl"),
]
# The same of -K after sockets were recorded.
LATE_FAILURES = [
    ("fork", 2, "fork"), ("fork", 3, "fork"), ("pipe2", 1, "pipe"), ("pipe2", 2, "pipe"),
    *((call, number, "capture") for call in ("fcntl", "lseek") for number in (1, 2)),
]


def test_failures(runs):
    """Reports calls that fail, and closes no socket then, but all descriptors, also if none fails.
    """
    with_group = inet_reply(FAR, FAR, inode=1) + attribute(21, struct.pack("<Q", GROUP or 1))
    runs.record(*dump("tcp", with_group), *dumps(shown_sockets(1)))
    # The processes are not found again for each socket.
    environment = failing(runs, "opendir", 10 * len(os.listdir("/proc")))
    with hosts(runs):
        found = runs.end("-aeprw", "src many.example:ssh", env=environment)
        compare("no failure", found[::2], (0, ""))
    runs.record(*dump("tcp", with_group))
    for arguments, call, number, name in FAILURES:
        compare(f"{arguments} {call} {number}",
                runs.end(*arguments, env=failing(runs, call, number))[::2],
                (1, f"socklist: {name}: Input/output error\n"))
    for call, number, name in LATE_FAILURES:
        compare(f"-K {call} {number}", runs.end(*KILL, env=failing(runs, call, number))[::2],
                (1, f"socklist: {name}: Input/output error\n{NOT_CLOSED}"))
    for call in ("dup2", "prctl"):
        status, _, errors = runs.end(env=failing(runs, call))
        compare(call, (status, set(errors.splitlines())),
                (1, {"socklist: dup2: Input/output error"}))
    expected = runs.end()
    for call, number in ("poll", 1), ("read", 1), ("waitpid", 1), ("waitpid", 2):
        compare(f"{call} {number}", runs.end(env=failing(runs, call, number, error=errno.EINTR)),
                expected)
    compare("getppid", runs.end(env=failing(runs, "getppid"))[::2], (1, ""))
    compare("realloc", runs.end(env=failing(runs, "realloc"))[::2],
            (1, "socklist: out of memory\n"))


def test_ended_process(runs):
    """A process that ends while its sockets are found, or that belongs to another user, is no error.
    """
    with socket.socket() as opened:
        number = opened.fileno()
        runs.record(*dump("tcp", inet_reply(FAR, FAR, inode=high(opened))))
        for error in (errno.ESRCH, errno.ENOENT, errno.EACCES, errno.EPERM, errno.EMFILE):
            is_reported = error == errno.EMFILE
            status, table, errors = runs.end("-aHp", env=stand_ins(runs, error))
            compare(f"{error}", (status, re.findall("users:(.*)", table), errors), (
                is_reported, [] if is_reported else [f'(("",pid={os.getpid()},fd={number}))'],
                "socklist: /proc: Too many open files\n" * is_reported))


def test_interfaces(runs):
    """Reports that names of interfaces cannot be read, unless there are none."""
    runs.record(*dump("tcp", inet_reply(FAR, FAR, interface=1)))
    for error, words, status, text in (
            (errno.ENXIO, "", 0, ""),
            (errno.EMFILE, "", 1, "if_indextoname: Too many open files\n"),
            (errno.ENODEV, "dev lo", 2, f"unknown interface: lo{TRY}"),
            (errno.EMFILE, "dev lo", 1, "if_nametoindex: Too many open files\n")):
        compare(f"{words} {error}", runs.end("-an", words, env=stand_ins(runs, error))[::2],
                (status, "socklist: " * bool(text) + text))


def with_terminal(runs, answer, arguments, environment):
    """Runs socklist in a terminal, and types an answer. Returns its exit status, what is shown
    there, and its standard error."""
    errors = runs.folder / "errors"
    process, terminal = pty.fork()
    if process == 0:
        os.dup2(os.open(errors, os.O_WRONLY | os.O_CREAT | os.O_TRUNC), 2)
        os.execve(runs.program, [runs.program, *arguments], environment)
    shown, is_answered = b"", False
    with killing(process):
        with contextlib.suppress(OSError):
            while part := os.read(terminal, 4096):
                shown += part
                if shown.endswith(b"[y/N] ") and not is_answered:
                    os.write(terminal, answer)
                    is_answered = True
        os.close(terminal)
        status = os.waitstatus_to_exitcode(os.waitpid(process, 0)[1])
        return status, shown.decode(), errors.read_text()


# Sockets that are closed: the protocol, and the reply.
CLOSED = [(TCP, inet_reply(("127.0.0.1", 22), FAR, cookie=0x123456789a, interface=1)),
          (TCP, inet_reply(("2001:db8::1", 22), ("::ffff:192.0.2.1", 443), cookie=1 << 63)),
          (UDP, inet_reply(("127.0.0.1", 22), FAR))]


def destroy(number, protocol, reply):
    """Returns the request to close a socket, by hand: SOCK_DESTROY with NLM_F_REQUEST and NLM_F_ACK,
    and struct inet_diag_req_v2 with the family, the protocol, no attributes, all states, and the
    identity of the socket, which the reply has from byte 4 to 51."""
    record = bytes([reply[0], protocol, 0, 0]) + b"\xff\xff\xff\xff" + reply[4:52]
    return message(21, 5, number, 0, record).hex()


def test_close(runs):
    """Closes the sockets that a filter selects, after asking, and reports those that the kernel did
    not close."""
    file, log = runs.folder / "replies", runs.folder / "closed"
    names = {TCP: "tcp", UDP: "udp"}
    file.write_text("".join(f"{names[protocol]} {reply.hex()}\n" for protocol, reply in CLOSED))
    expected = [destroy(number, *it) for number, it in enumerate(CLOSED, 1)]
    environment = runs.kernel(file, FAKE_KERNEL_CLOSED=str(log))
    kill = ["-Kn", "sport >= :22 and sport <= :22"]
    for arguments, answer, requests in (
            (kill, b"y\n", expected), (kill, b"Y\n", expected),
            (["-Ktn", "sport", "ge", "22"], b"yes\n", expected[:2]),
            (["-Kun", "sport", "ge", "22"], b"yes\n", [destroy(1, *CLOSED[2])]),
            (kill, b"n\n", []), (kill, b"\n", []), (kill, b"\4", [])):
        log.write_text("")
        status, shown, errors = with_terminal(runs, answer, arguments,
                                              failing(runs, environment=environment))
        # fake_kernel.c leaves its file open.
        expected_errors = r"descriptor \d+ is open" if requests else "socklist: nothing was closed"
        assert re.fullmatch(f"{expected_errors}\n", errors), errors
        compare(f"{arguments} {answer}", log.read_text().split(), requests)
        compare(f"{arguments} {answer}", status, 0 if requests else 1)
        count = len(requests) or 3
        assert f"Close {count} socket{'s' * (count > 1)}? [y/N] " in shown, shown
    for arguments, requests in ((["-H"], expected), (["--json"], expected), (["-u"], [
            destroy(1, *CLOSED[2])]), (["sport <= :21"], [])):
        log.write_text("")
        status, table, errors = runs.end(*kill, "--yes", *arguments, env=environment)
        compare(f"{arguments}", (status, errors, log.read_text().split()), (0, "", requests))
        compare(f"{arguments}", table.count("22"), len(requests)) if "-u" in arguments else None
    if shutil.which("valgrind"):
        found = runs.end(*kill, "--yes", under=VALGRIND, env=environment)
        compare("memory", (found[0], found[2]), (0, ""))
    log.write_text("")
    found = runs.end(*kill, env=environment, start_new_session=True)
    error = "socklist: no terminal to ask on; --yes closes without asking\n"
    compare("no terminal", (found[0], found[2], log.read_text()), (1, error, ""))


# The command that closes the three sockets of `CLOSED`, and how an error names each of them.
CLOSE = ["-Kn", "--yes", "sport >= :22"]
ENDS = ["tcp 127.0.0.1 port 22, 192.0.2.1 port 443",
        "tcp 2001:db8::1 port 22, ::ffff:192.0.2.1 port 443",
        "udp 127.0.0.1 port 22, 192.0.2.1 port 443"]


def test_close_errors(runs):
    """Reports each socket that was not closed, also while signals interrupt the calls, but not one
    that is gone. Answers to other requests are skipped."""
    file, log = runs.folder / "replies", runs.folder / "closed"
    for number, text in ((1, "Operation not permitted"), (2, ""), (95, "Operation not supported")):
        environment = runs.kernel(file, FAKE_KERNEL_CLOSED=str(log), FAKE_KERNEL_SIGNALS="1",
                                  FAKE_KERNEL_DESTROY=str(-number))
        found = runs.end(*CLOSE, env=environment)
        errors = "".join(f"socklist: not closed: {it}: {text}\n" for it in ENDS if text)
        compare(text, (found[0], found[2]), (bool(text), errors))
    refusal = f"socklist: not closed: {ENDS[0]}: Operation not permitted\n"
    for name, more, status, error in (
        ("FIRST", {"FAKE_KERNEL_DESTROY": "-1"}, 1, refusal), ("STALE", {}, 0, ""),
        ("ENDS", {}, 1, "".join(f"socklist: not closed: {it}: Protocol error\n" for it in ENDS)),
        ("DENIES", {}, 1, "".join(f"socklist: not closed: {it}: Operation not permitted\n"
                                  for it in ENDS)),
    ):
        more |= {"FAKE_KERNEL_CLOSED": str(log), f"FAKE_KERNEL_DESTROY_{name}": "1"}
        compare(name, runs.end(*CLOSE, env=runs.kernel(file, **more))[::2], (status, error))
    environment = runs.kernel(file, FAKE_KERNEL_CLOSED=str(log))
    found = runs.end(*CLOSE, env=failing(runs, "recv", 2, environment))
    compare("short answer", (found[0], found[2].splitlines()[:-1]),
            (1, [f"socklist: not closed: {ENDS[1]}: Protocol error"]))


def test_close_incomplete(runs):
    """Closes nothing if not all sockets were listed."""
    file, log = runs.folder / "replies", runs.folder / "closed"
    environment = runs.kernel(file, FAKE_KERNEL_CLOSED=str(log), FAKE_KERNEL_REFUSES="1")
    log.write_text("")
    found = runs.end(*CLOSE, env=environment)
    compare("refused", (found, log.read_text()),
            ((1, "", "sockdump: connect: Operation not permitted\n"), ""))
    lost = dump("tcp", CLOSED[0][1])
    runs.record(*lost[:2], message(sockdump.DONE, 2, 1, 77, struct.pack("<i", -105)))
    environment = os.environ | {"LD_PRELOAD": runs.library, "FAKE_KERNEL_CLOSED": str(log)}
    found = runs.end(*CLOSE, env=environment)
    assert found[0] == 1 and found[2].endswith(NOT_CLOSED) and not log.read_text(), found
    runs.record(*dump("tcp", CLOSED[0][1]))
    real = os.path.abspath(runs.programs["sslist"])
    for script, status in (
            ("*--json*) exit 1", 1), ("*--json*) ;; *) exit 1", 1), ("*) exit 2", 2)):
        runs.use(sockdump=f"exec cat {runs.folder}/capture",
                 sslist=f'{real} "$@" || exit; case "$*" in {script}; esac')
        found = runs.end(*CLOSE, env=environment)
        compare(script, (found[0], found[2], log.read_text()),
                (status, NOT_CLOSED * (status == 1), ""))


def test_close_other_objects(runs):
    """Closes nothing if a line of JSON lacks a member that sslist writes, has a wrong address, or is
    about another kind of sockets."""
    log = runs.folder / "closed"
    log.write_text("")
    runs.record(*dump("tcp", CLOSED[0][1]))
    real = os.path.abspath(runs.programs["sslist"])
    listed = subprocess.run([real, "--json", runs.folder / "capture"], stdout=subprocess.PIPE,
                            check=True).stdout.decode()
    for old, new in (*((f',"{it}":', ',"no":') for it in (
            "family", "sport", "dport", "if", "src", "dst", "cookie")),
            *(('"127.0.0.1"', f'"{it}"') for it in ("127.0.0.x", "127.0.0.1 ", 46 * "1", "")),
            ('"tcp"', '"raw"'), ('"tcp"', '"udplite"')):
        runs.use(sockdump=f"exec cat {runs.folder}/capture",
                 sslist=f"""{real} "$@" | sed 's/{old}/{new}/'""")
        found = runs.end(*CLOSE, env=os.environ | {"LD_PRELOAD": runs.library,
                                                  "FAKE_KERNEL_CLOSED": str(log)})
        wrong = f"socklist: not a TCP or UDP socket: {listed.replace(old, new)[:60]}\n"
        compare(f"{old} {new}", (found[0], found[2], log.read_text()), (1, wrong + NOT_CLOSED, ""))


def test_close_failed_calls(runs):
    """Reports the call that failed, also if descriptors lack: then no socket or each is closed."""
    file, log = runs.folder / "replies", runs.folder / "closed"
    runs.record(*dump("tcp", CLOSED[0][1]))
    for name, value, what in (("REFUSES", "socket", "socket"), ("REFUSES", "connect", "connect"),
                              ("DENIES", "1", f"not closed: {ENDS[0]}")):
        found = runs.end(*CLOSE, env=os.environ | {"LD_PRELOAD": runs.library,
                                                  f"FAKE_KERNEL_{name}": value})
        compare(what, found[::2], (1, f"socklist: {what}: Operation not permitted\n"))
    environment = runs.kernel(file, FAKE_KERNEL_CLOSED=str(log))
    for most in range(4, 14):
        log.write_text("")
        found = runs.end(*CLOSE, env=environment, preexec_fn=with_descriptors(most))
        assert len(log.read_text().split()) == (0 if found[0] else 3) and (
            found[0] == 0 or found[2]), f"{most}: {found}"


def test_fresh(runs):
    """A list shows the processes of its time, also if the clock is set back."""
    with socket.socket() as opened:
        runs.record(*dump("tcp", inet_reply(FAR, FAR, inode=high(opened))))
        file = runs.folder / "capture"
        runs.use(sockdump=f"cat {file}; sleep 1.2; tail -c +25 {file}")
        with runs.start("-aHp", "--every=1", env=stand_ins(runs, errno.ESRCH)) as running:
            one = running.stdout.readline()
            opened.close()
            other = running.stdout.readline()
    assert b"users:" in one and b"users:" not in other and other, (one, other)


def test_many(runs):
    """Few descriptors suffice for many hosts, processes and netlink sockets. If valgrind is
    installed, each host leaves only its address and its name in memory, and no other memory is
    accessed."""
    runs.record(*dump("tcp", *(inet_reply((f"192.0.2.{it}", 22), FAR) for it in range(10, 40))))
    with hosts(runs):
        expected = runs.end("-tanH", "--resolve")
        compare("hosts", runs.end("-tanrH", preexec_fn=with_descriptors(20)), expected)
        if shutil.which("valgrind"):
            # The array of arguments is full: the null pointer after them needs a larger one.
            arguments = ["-taperH", *64 * ["--utf8"], "dst many.example:80 or sport 1"]
            compare("memory", runs.end(*arguments, under=VALGRIND), runs.end(*arguments))
    compare("hosts", expected[::2], (0, ""))
    with socket.socket() as opened, contextlib.ExitStack() as ended:
        for _ in range(30):
            child = ended.enter_context(subprocess.Popen(["sleep", str(LIMIT)]))
            ended.callback(child.kill)
        runs.record(*dump("tcp", inet_reply(FAR, FAR, inode=os.fstat(opened.fileno()).st_ino)))
        expected = runs.end("-aHp")
        assert "users:" in expected[1] and expected[0] == 0, expected
        compare("processes", runs.end("-aHp", preexec_fn=with_descriptors(20)), expected)
    runs.record(*dump("netlink", *30 * [
        struct.pack("<4B4IQ", 16, 3, 0, 7, os.getpid(), 0, 0, 5, 3)]))
    expected = runs.end("-aH")
    assert expected[0] == 0 and expected[1].count(f":{own_name()}/") == 30, expected
    compare("netlink", runs.end("-aH", preexec_fn=with_descriptors(20)), expected)


def test_killed(runs):
    """Both programs end with socklist."""
    runs.use(sockdump="echo started >&2; exec sleep 60")
    with runs.start("-a", stderr=subprocess.PIPE) as running:
        compare("started", running.stderr.readline(), b"started\n")
        running.kill()
        running.communicate(timeout=5)


def test_rounds(runs):
    """Prints each round as it ends, and ends when the readers of the pipe have closed it, also while
    it waits."""
    environment = runs.kernel(kernels.HERE / "kernels/linux-6.18")
    for arguments, line in ((["--every=86400", "-a"], b"Netid"), (["-E", "-H"], b"")):
        with runs.start(*arguments, env=environment if line else None,
                        stderr=subprocess.PIPE) as running:
            compare(f"{arguments}", running.stdout.read(len(line)), line)
            running.stdout.close()
            compare(f"{arguments}", (running.wait(), running.stderr.read()),
                    (-signal.SIGPIPE, b""))
    # A socket that is closed while both programs wait: no write to it fails.
    runs.use(sockdump="exec sleep 60", sslist="exec sleep 60")
    one, other = socket.socketpair()
    with runs.start("-E", stdout=other) as running:
        one.close()
        other.close()
        compare("socket", running.wait(), -signal.SIGPIPE)
    runs.use()
    with runs.start("-E", stderr=subprocess.PIPE,
                    preexec_fn=lambda: signal.signal(signal.SIGPIPE, signal.SIG_IGN)) as running:
        running.stdout.close()
        compare("ignored signal", (running.wait(), running.stderr.read()),
                (1, b"socklist: standard output: Broken pipe\n"))
    for words, is_empty in ((), False), (("sport", "<=", ":65535"), False), (("sport = :0",), True):
        found = runs.end("-E", "-Hn", *words, env=environment)
        compare(f"-E {words}", (found[0], found[1] == ""), (1, is_empty))
        assert found[2].startswith("sockdump: recv: "), found
    with runs.start("--every=1", "-aH", env=environment) as running:
        assert all(running.stdout.readline() for _ in range(3)), "a round is missing"


def test_this_kernel(runs):
    """Lists sockets that are open here, if the kernel permits it."""
    runs.use()
    with socket.create_server(("127.0.0.1", 0), backlog=7) as listening, \
            socket.socket(socket.AF_UNIX) as named:
        named.bind(f"{runs.folder}/named")
        status, table, errors = runs.end("-tuxanH")
        port = f"127.0.0.1:{listening.getsockname()[1]}"
    if errors.startswith("sockdump: socket: "):
        print(f"socklist: skipped: sockets of this machine: {errors.strip()}")
        return
    rows = [line.split() for line in table.splitlines()]
    compare("this kernel", (status, [it[:4] for it in rows if it[6] == port]),
            (0, [["tcp", "LISTEN", "0", "7"]]))
    assert any(it[6] == f"{runs.folder}/named" for it in rows), "UNIX socket"


def test_conditions(runs):
    """Lists what the kernel has selected, also by what no reply has."""
    runs.record(*dump("tcp", inet_reply(("127.0.0.1", 22), FAR)))
    expected = runs.end("-tan")
    compare("-tan", (expected[0], expected[1].count("\n"), expected[2]), (0, 2, ""))
    for words in ("autobound", "fwmark = 7", "dport = :1"):
        compare(words, runs.end("-tan", words), expected)


def test_hostile(runs):
    """Reports what is lost: streams that are not open, a full disk, no descriptors, a program that
    is missing or killed, and data that the kernel lost."""
    environment = runs.kernel(kernels.HERE / "kernels/linux-6.18")
    words = "state all sport >= :1 and sport <= :65535"
    for arguments in (["-an"], ["-a"], ["-s"], ["-np", words], ["-ap", "--json", words]):
        expected = runs.end(*arguments, env=environment)
        assert expected[::2] == (0, "") and expected[1].count("\n") > 2, f"{arguments}: {expected}"
        compare("signals", runs.end(*arguments, env=environment | {"FAKE_KERNEL_SIGNALS": "1"}),
                expected)
        for most in range(4, 14):
            found = runs.end(*arguments, env=environment, preexec_fn=with_descriptors(most))
            assert found == expected or found[0] != 0 and found[2], f"{arguments} {most}: {found}"
    expected = runs.end(env=environment)
    assert expected[::2] == (0, "") and expected[1], expected
    for closed in range(3):
        compare(f"without {closed}", runs.end(env=environment, preexec_fn=kernels.without(closed)),
                expected if closed != 1 else (1, "", "socklist: standard output is not open\n"))
    for arguments in ([], ["--help"], ["--version"], ["--every=1"], ["-ap", "--json"], ["-s"],
                      ["-p", words]):
        with open("/dev/full", "wb") as full:
            found = [runs.end(*arguments, under=it, env=environment, stdout=full)
                     for it in ((), ("stdbuf", "-oL"))]
        compare(f"{arguments} >/dev/full", found,
                2 * [(1, None, "socklist: standard output: No space left on device\n")])
    found = runs.end("-u", env={name: it for name, it in environment.items()
                                if name != "FAKE_KERNEL_REPLIES"})
    assert found[0] == 1 and "sockdump: recv: No buffer space available\n" in found[2], found


def test_programs(runs):
    """Reports a program that is missing, fails or is killed, also after it has written lines."""
    missing = "socklist: sslist: No such file or directory\n"
    runs.use()
    (runs.folder / "sslist").unlink()
    found = runs.end(env=os.environ | {"PATH": "/none"})
    compare("missing", (found[0], missing in found[2]), (1, True))
    (runs.folder / "elsewhere").mkdir()
    (runs.folder / "elsewhere/sslist").symlink_to(os.path.abspath(runs.programs["sslist"]))
    compare("PATH", runs.end("-H", env=os.environ | {"PATH": f"{runs.folder}/elsewhere"})[0], 0)
    for name in ("sockdump", "sslist"):
        for script, status, error in (
                ("kill -9 $$", 1, f"socklist: {name}: Killed\n"), ("exit 3", 1, ""),
                ("exit 2", 2, ""), ("kill -13 $$", 1, ""), ("echo line; exit 1", 1, "")):
            runs.use(**{"sockdump": "", "sslist": "cat >&2", name: script})
            found = runs.end()
            line = "line\n" * (name == "sockdump" and "line" in script)
            compare(f"{name}: {script}", (found[0], found[2]), (status, line + error))
    # Programs get no descriptors except for their streams. The last one is that of ls.
    script, shown = "cat >/dev/null; exec ls /proc/self/fd >&2", "0\n1\n2\n3\n"
    for arguments, programs in (([], {"sockdump": "exec ls /proc/self/fd >&2", "sslist": ""}),
                                ([], {"sockdump": "", "sslist": script}),
                                (["-K", "--yes", "sport 1"], {"sockdump": "", "sslist": script})):
        runs.use(**programs)
        compare(f"descriptors: {arguments}", runs.end(*arguments),
                (0, "", shown * (2 if arguments else 1)))
    runs.record(*dump("tcp", inet_reply(FAR, FAR)))
    (runs.folder / "getent").write_text("#!/bin/sh\nexec ls /proc/self/fd >&2\n")
    (runs.folder / "getent").chmod(0o755)
    compare("descriptors: getent", runs.end("-tpr")[::2], (0, shown))
    (runs.folder / "getent").unlink()
    # An sslist that writes no ports, no interfaces and no objects.
    shown = [["1.2.3.4:65536", "1.2.3.4:99999999999"], ["*", "1.2.3.4"],
             *([f"1.2.3.4%{it}:99", "*:*"] for it in (0, 1 << 32 | 1, "1x"))]
    runs.use(sockdump="", sslist="".join(f"echo tcp ESTAB 0 0 0 0 '{one}' '{other}'\n"
                                         for one, other in shown))
    compare("no ports", [it.split()[6:8] for it in runs.end("-t")[1].splitlines()], shown)
    runs.use(sockdump="", sslist="echo; echo tcp x")
    for arguments in (["-p", "--json"], ["-p"]):
        compare(f"no sockets: {arguments}", runs.end(*arguments), (0, "\ntcp x\n", ""))
    runs.use(sockdump="", sslist="exit 1")
    compare("no summary", runs.end("-s"), (1, "", ""))
    # It does not wait for a program whose output it no longer reads.
    runs.use(sockdump="", sslist=f"echo line; exec sleep {2 * LIMIT}")
    with open("/dev/full", "wb") as full:
        environment = failing(runs, "waitpid", 1, error=errno.EINTR)
        compare("sslist continues", runs.end("--every=1", stdout=full, env=environment),
                (1, None, "socklist: standard output: No space left on device\n"))


def main():
    failed = 0
    with tempfile.TemporaryDirectory() as folder:
        runs = Runs(folder, *sys.argv[1:])
        for test in [it for name, it in globals().items() if name.startswith("test_")]:
            try:
                test(runs)
            # What socklist prints may also be no table and no JSON.
            except Exception as error:
                print(f"{test.__name__}: {error!r}")
                failed += 1
    print(f"socklist: {failed} tests failed" if failed else "socklist: all tests pass")
    return 1 if failed else 0


if __name__ == "__main__":
    sys.exit(main())
