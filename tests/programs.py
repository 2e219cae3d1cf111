#!/usr/bin/env python3
"""tests/programs.py [--rust] SOCKDIAG SSLIST: runs the two built programs at these paths with each
form of arguments, and compares standard output, standard error and exit status. Prints the
differences. The exit status is 1 if there is one.

With --rust the programs were built by Cargo. They are not run without standard input, output or
error: before they begin, Rust's runtime opens /dev/null in place of these.
"""
import functools
import ipaddress
import json
import os
import re
import select
import shutil
import subprocess
import sys
import tempfile
import traceback
import unicodedata

import runs
from runs import CAPTURE, TABLE, TOP, check, packet, run

VERSION = (TOP / "VERSION").read_bytes()
# The expected output of each program with --help.
HELP = TOP / "tests/help"
# The values of the first column for the sockets that an option selects.
KINDS = {
    "-t": "tcp inet inet6",
    "-u": "udp inet inet6",
    "-M": "mptcp inet inet6",
    "-x": "unix u_str u_dgr u_seq",
    "-0": "p_raw p_dgr",
    "--family=netlink": "nl",
    "--vsock": "vsock v_str v_dgr v_seq",
    "--xdp": "xdp",
}
# A detail that one option shows and the others do not.
DETAILS = {"-o": b" timer:", "-e": b" sk:", "-m": b" skmem:", "-i": b" cwnd:"}
# An attribute of an unknown type, with the longest value whose length is a multiple of 4.
LONG_ATTRIBUTE = (65_532).to_bytes(2, "little") + bytes([200, 0]) + bytes(65_528)
# The long names of letters.
LONG_NAMES = {
    "-n": "--numeric", "-a": "--all", "-l": "--listening", "-o": "--options", "-e": "--extended",
    "-m": "--memory", "-i": "--info", "-4": "--ipv4", "-6": "--ipv6", "-0": "--packet",
    "-t": "--tcp", "-u": "--udp", "-x": "--unix", "-M": "--mptcp", "-H": "--no-header",
    "-O": "--oneline",
}
# The general categories of characters that an encoding or a later version of Unicode may define.
UNKNOWN = ("Cn", "Cs", "Co")
failures = runs.failures


def check_not_open(program, rows):
    """Runs a program without standard input, output or error. Each row has the descriptor, the
    arguments, the input, and what is expected."""
    for closed, *row in rows:
        check(program, *row, preexec_fn=functools.partial(os.close, closed))


def check_failed_writes(program, arguments, given, closed, full):
    """Checks that runs with a pipe without a reader or a full device as output end with status 1
    and these errors."""
    read, pipe = os.pipe()
    os.close(read)
    for output, errors in [(pipe, closed), (os.open("/dev/full", os.O_WRONLY), full)]:
        check(program, arguments, given, 1, b"", errors, output)


def test_sockdiag(program):
    lines, answers = ((TOP / "crates/sockdiag" / it).read_bytes() for it in ("stdin", "stdout"))
    line, answer = lines.splitlines(True)[0], answers.splitlines(True)[0]
    for arguments in (
        [], ["-h"], [""], ["file"], [b"\xff"], ["--strict=1"], ["--strict"] * 2, ["--help", "x"],
    ):
        check(program, arguments, lines, 0, answers)
    check(program, ["--help"], lines, 0, (HELP / "sockdiag").read_bytes())
    check(program, ["--version"], lines, 0, b"sockdiag " + VERSION)
    for text, printed, strict in [
        (b"", b"", 0), (line, answer, 0), (lines, answers, 3),
        (line + b"unix 00", answer + b"refused 2\n", 3), (b"\n", b"bad line\n", 3),
        (b"dump -", b"ok reading 0\n", 0), (b"dump 00", b"ok failed:16 0\n", 3),
    ]:
        check(program, [], text, 0, printed)
        check(program, ["--strict"], text, strict, printed)
    for arguments in ([], ["--strict"], ["--help"], ["--version"]):
        check_failed_writes(program, arguments, line, *[b"sockdiag: writing failed\n"] * 2)
    check(program, [], os.open("/", os.O_RDONLY), 1, b"", b"sockdiag: reading failed\n")
    reply = bytes([1, 1, 10, *bytes(13)]) + LONG_ATTRIBUTE * 520
    assert len(reply.hex()) > 64 << 20
    check(program, [], b"unix %s\n" % reply.hex().encode(), 0, b"ok %s\n" % reply.hex().encode())
    check_prompt_answers(program, lines.splitlines(True)[:40], answers.splitlines(True))


def test_sockdiag_not_open(program):
    line, answer = ((TOP / "crates/sockdiag" / it).read_bytes().splitlines(True)[0]
        for it in ("stdin", "stdout"))
    check_not_open(program, [
        (0, [], line, 1, b"", b"sockdiag: reading failed\n"),
        (1, [], line, 1, b"", b"sockdiag: writing failed\n"),
        (1, ["--help"], b"", 1, b"", b"sockdiag: writing failed\n"),
        (2, [], line, 0, answer),
    ])


def check_prompt_answers(program, lines, answers):
    """Writes each line only after the answer to the line before has been read."""
    pipes = {"stdin": subprocess.PIPE, "stdout": subprocess.PIPE}
    with subprocess.Popen([program], bufsize=0, **pipes) as started:
        for line, answer in zip(lines, answers):
            started.stdin.write(line)
            read = b""
            while not read.endswith(b"\n") and select.select([started.stdout], [], [], 60)[0]:
                read += started.stdout.read(1 << 16) or b"\n"
            if read != answer:
                failures.append(f"{program}: {read[:60]} before the next line, "
                    f"expected {answer[:60]}")
                break
        started.stdin.close()


def caption(name):
    """Returns the line before the table of a file, if there are several."""
    return f"==> {name} <==\n".encode()


def test_sslist(program):
    capture, table = CAPTURE.read_bytes(), TABLE.read_bytes()
    # The kit accepts no symbolic link in place of the copy.
    assert (TOP / "examples/capture.pcap").read_bytes() == capture
    note, missing = b"sslist: .*packet 12, message 1: .*\n", b"sslist: /nowhere: .*\n"
    wrong = b"sslist: %s %s; try sslist --help\n"
    unknown = b"sslist: unknown option %s; try sslist --help\n"
    no_processes = b"; a capture has no processes"
    no_family = b"sslist: -f without a family; try sslist --help\n"
    no_text = rb"sslist: argument %s is not valid UTF-8; rename the file, or write sslist <FILE\n"
    captioned = caption(CAPTURE) + table
    page = (TOP / "man/sslist.1").read_text(encoding="utf-8")
    assert f".Ql {caption('FILE').decode().strip()} " in page, "the caption in sslist.1"
    for arguments, status, printed, errors in [
        ([], 1, b"", b"sslist: .*\n"), ([b"\xff"], 2, b"", no_text % rb"\\xff"),
        ([b"a" * 4999 + b"\xff"], 2, b"", no_text % (b"a" * 4999 + rb"\\xff")),
        (["--help", CAPTURE, b"a\xffb"], 2, b"", no_text % rb"a\\xffb"),
        ([""], 1, b"", b"sslist: '': .*\n"),
        (["-f", ""], 2, b"", wrong % (b"unknown family", b"'' after -f")),
        ([CAPTURE], 0, table, note), ([CAPTURE, CAPTURE], 0, captioned * 2, note * 2),
        ([CAPTURE, "--"], 0, table, note),
        (["/"], 1, b"", b"sslist: /: the input is a directory; name the captures in it\n"),
        (["/proc/self/mem"], 1, b"",
            rb"sslist: /proc/self/mem: reading failed \(os error 5: input/output error\)\n"),
        ([CAPTURE, "/nowhere"], 1, captioned, note + missing),
        (["/nowhere", CAPTURE], 1, captioned, missing + note),
        (["/\x1b[1m\\"], 1, b"", rb"sslist: /\\x1b\[1m\\x5c: .*\n"),
        (["state"], 1, b"", rb"sslist: state: .*\(os error 2\); a filter follows --, as in .*\n"),
        (["sport = :22"], 1, b"", rb"sslist: sport\\x20=.*: .*; a filter follows --, as in .*\n"),
        (["state up"], 1, b"", rb"sslist: state\\x20up: .*; a filter follows --, as in .*\n"),
        (["exclude"], 1, b"", rb"sslist: exclude: .*; a filter follows --, as in .*\n"),
        (["-\x1bt"], 2, b"", unknown % rb"-\\x1b in -\\x1bt"), (["-tf"], 2, b"", no_family),
        (["-f", "-x"], 2, b"", wrong % (b"unknown family", b"-x after -f")),
        (["-f", "all"], 2, b"", wrong % (b"unknown family", b"all after -f")),
        (["--family=ip", "-h"], 2, b"", wrong % (b"unknown family in", b"--family=ip")),
        (["-q", CAPTURE], 2, b"", unknown % b"-q"),
        (["-tlnp", "-q"], 2, b"", unknown % (b"-p in -tlnp" + no_processes)),
        (["-p"], 2, b"", unknown % (b"-p" + no_processes)),
        (["--processes"], 2, b"", unknown % (b"--processes" + no_processes)),
        (["-ts"], 2, b"", unknown % b"-s in -ts; to count sockets, count the lines of -HO"),
        (["-r"], 2, b"", unknown % b"-r; names are never resolved"),
        (["-A"], 2, b"", unknown % b"-A; select sockets by -t, -u, -M, -x, -0 or -f FAMILY"),
        (["dst"], 1, b"", rb"sslist: dst: .*; .* sslist FILE -- state established\n"),
        (["-tqf", "x"], 2, b"", unknown % b"-q in -tqf"),
        (["-\u00e9"], 2, b"", unknown % rb"-\\xc3 in -\\xc3\\xa9"),
        (["-t", "--no", "--help"], 2, b"", unknown % b"--no"),
        ([CAPTURE, "--version"], 0, b"sslist " + VERSION, b""),
        (["-V"], 0, b"sslist " + VERSION, b""),
        (["-t", "--help", "-q"], 0, (HELP / "sslist").read_bytes(), b""),
        (["-f", "unix", "-h"], 0, (HELP / "sslist").read_bytes(), b""),
    ]:
        check(program, arguments, b"", status, printed, errors)
    for arguments in ([], ["-"], ["-", "--"], ["-n", "--"]):
        check(program, arguments, capture, 0, table, note)
    check(program, ["-", CAPTURE], capture, 0, caption("-") + table + captioned, note * 2)
    failed = b"writing to standard output failed (os error 28: no space left on device)"
    failed = re.escape(b"sslist: " + failed + b"\n")
    check_failed_writes(program, [], capture, b"", failed)
    check_failed_writes(program, ["--help"], b"", b"", failed)
    check_failed_writes(program, ["--version"], b"", b"", failed)


def test_sslist_not_open(program):
    """A file gets the descriptor that is not open."""
    capture, table = CAPTURE.read_bytes(), TABLE.read_bytes()
    note = b"sslist: .*packet 12, message 1: .*\n"
    unread = rb"sslist: reading failed \(os error 9: bad file descriptor\)\n"
    unwritten = rb"sslist: (.*: )?writing .* failed \(os error 9: bad file descriptor\)\n"
    check_not_open(program, [
        (0, [CAPTURE], b"", 0, table, note), (0, [], b"", 1, b"", unread),
        (0, [CAPTURE, "-"], b"", 1, caption(CAPTURE) + table, note + unread),
        (1, [CAPTURE], b"", 1, b"", unwritten), (1, [], capture, 1, b"", unwritten),
        (1, ["--help"], b"", 1, b"", unwritten),
        (2, [CAPTURE], b"", 0, table), (2, [], capture, 0, table), (2, ["/nowhere"], b"", 1, b""),
    ])


def test_terminal(program):
    """Checks that a terminal as standard input is reported, instead of waiting for a capture."""
    outer, terminal = os.openpty()
    line = rb"sslist: standard input is a terminal; try sockdump \| sslist, or sslist FILE\n"
    check(program, ["-tln"], terminal, 1, b"", line)
    os.close(terminal)
    os.close(outer)


def test_rejections(program):
    """Compares the lines about misplaced letters, and about missing and unexpected values."""
    misplaced = "-f has to be the last letter in %s, as in -f FAMILY"
    for arguments, text in [
        (["-ft", "unix"], misplaced % "-ft"), (["-finet"], misplaced % "-finet"),
        (["-tff", "unix"], misplaced % "-tff"), (["-fq"], misplaced % "-fq"),
        (["-th", "-q"], "-h has to be alone, not in -th"),
        (["-Vt", "--help"], "-V has to be alone, not in -Vt"),
        (["--family", "inet"], "--family needs a value: write --family=FAMILY"),
        *[([f"--{it}=1", "-h"], f"--{it} takes no value")
            for it in "help version utf8 requests json vsock xdp".split()],
        *[([f"{it}=1", "-h"], f"{it} takes no value") for it in LONG_NAMES.values()],
        (["-n=1"], "-n takes no value"), (["-tn=1=2"], "-tn takes no value"),
        (["--tcp=1=2"], "--tcp takes no value"), (["--tcp="], "--tcp takes no value"),
        *[([it], f"unknown option {it}") for it in ("--tc", "--tcpx", "--=", "--tc=1", "--t")],
        (["--utf8=\x1b="], "--utf8 takes no value"), (["--json="], "--json takes no value"),
    ]:
        line = f"sslist: {text}; try sslist --help\n".encode()
        check(program, arguments, b"", 2, b"", re.escape(line))


def test_unreadable_file(program):
    """Lists a file that may not be read, as a user who is not root."""
    with tempfile.TemporaryDirectory() as folder:
        os.chmod(folder, 0o755)
        file, copy = os.path.join(folder, "capture"), os.path.join(folder, "sslist")
        shutil.copy(CAPTURE, file)
        shutil.copy(program, copy)
        os.chmod(copy, 0o755)
        os.chmod(file, 0)
        user = {} if os.geteuid() else {"user": 65534}
        got = run(copy, [file], b"", **user)
        if got[:2] != (1, b"") or not re.fullmatch(rb"sslist: .*/capture: .*\n", got[2]):
            failures.append(f"{program}: a file that may not be read: {got}")


def test_letters(program):
    """Compares the characters that `--utf8` shows with the properties in Python's unicodedata, for
    each character that it knows, and the columns of some names with their widths."""
    file_header = CAPTURE.read_bytes()[:24]
    blank = "\u115f\u1160\u3164\uffa0\u2800\U0001d159\U00013441\U00013442"
    codes = range(0x80, 0x110000)
    texts = [it for it in map(chr, codes) if unicodedata.category(it) not in UNKNOWN]
    names = ["/" + "".join(texts[it : it + 40]) for it in range(0, len(texts), 40)]
    shown = [
        it not in blank
        and unicodedata.category(it)[0] in "LNPS"
        and unicodedata.bidirectional(it) in ("L", "EN", "ES", "ET", "CS", "ON")
        for it in texts
    ]
    packets = b"".join(map(socket_with_path, names))
    status, table, _ = run(program, ["--utf8", "-H"], file_header + packets)
    cells = [row.split()[6] for row in table.splitlines()[::2]]
    assert status == 0 and len(cells) == len(names), (status, len(cells), len(names))
    for index, cell in enumerate(cells):
        pairs = zip(texts[index * 40 :], shown[index * 40 : index * 40 + 40])
        expected = "".join(it if yes else escaped(it) for it, yes in pairs)
        if cell.decode() != "/" + expected:
            failures.append(f"{program} --utf8: {cell.decode()}, expected {expected}")
    for name, width in [("é", 1), ("漢字", 4), ("ｗｉｄｅ", 8), ("한글", 4), ("🦀", 2), ("👍🏽", 2)]:
        packet = socket_with_path("/" + name)
        table = run(program, ["--utf8", "-H"], file_header + packet)[1].decode()
        if f" /{name}{(30 - width) * ' '}*\n" not in table:
            failures.append(f"{program} --utf8: {table}, expected the width {width}")


def escaped(text):
    """Returns the bytes of a text as `sslist` escapes them."""
    return "".join(f"\\x{it:02x}" for it in text.encode())


def socket_with_path(path):
    """Returns a packet with a reply about a UNIX socket with this path."""
    name = path.encode() + b"\0"
    size = (4 + len(name)).to_bytes(2, "little") + bytes(2)
    return packet([1, 1, 10, 0, 7, *bytes(11)] + list(size + name + bytes(-len(name) % 4)))


def test_options(program):
    """Lists the stored capture, followed by a UDP request, its reply, and a reply for each other
    family."""
    bodies = [[2, 7, *bytes(70)], [16, *bytes(27)], [17, 3, *bytes(14)], [40, *bytes(31)]]
    bodies += [[44, *bytes(15)]]
    request = packet([2, 17, 0, 0, 0xFE, *bytes(51)], 0x301)
    capture = CAPTURE.read_bytes() + request + b"".join(map(packet, bodies))
    status, table, errors = run(program, [], capture)
    errors = re.escape(errors)
    heading, *rows = table.replace(b"\n\t", b"").splitlines(True)
    check_each(program, capture, heading, errors)
    check_several(program, capture, status, heading, rows, errors)
    check_selections(program, capture, heading, rows, errors)
    check_endpoints(program, capture, heading, rows, errors)
    check_filters(program)
    for arguments in (["-n"], ["-a"], ["-na"], ["-la"], ["-oemi"], ["-o", "-e", "-mi"]):
        check(program, arguments, capture, status, table, errors)
    for option in DETAILS:
        shown = [it for it in DETAILS if DETAILS[it] in run(program, [option], capture)[1]]
        assert shown == [option], (shown, option)
    text = run(program, ["--requests"], capture)[1]
    assert re.sub(rb"(?m)^-- .*\n", b"", text) == table, "--requests"
    start = b"\n-- 1970-01-01T00:00:00.000000000Z "
    assert start + b"udp family:inet states:0xfe\n" in text, "--requests"
    name = "/hörening".encode()
    named = capture.replace(b"/listening", name)
    printed = table.replace(b"/listening ", name + b"  ")
    check(program, ["--utf8"], named, status, printed, errors)
    escaped = printed.replace("ö".encode(), b"\\xc3\\xb6")
    assert run(program, [], named)[1].split() == escaped.split(), "without --utf8"


def check_each(program, capture, heading, errors):
    """Checks that each option has the same effect before and after files, for one and for two, and
    that -H removes the heading only."""
    with tempfile.NamedTemporaryFile() as file:
        file.write(capture)
        file.flush()
        choices = [[it] for it in [*KINDS, *DETAILS, "-n", "-a", "-O", "--requests", "--utf8"]]
        choices += [["-t", "-x", "-oemi"], ["-4"], ["-l6"], ["-lf", "unix"]]
        for arguments in choices:
            ended, listed, _ = run(program, arguments, capture)
            diagnostics = b"(sslist: .*packet 12, message 1: .*\n)?"
            check(program, [*arguments, file.name], b"", ended, listed, diagnostics)
            twice = [file.name, *arguments, file.name]
            check(program, twice, b"", ended, (caption(file.name) + listed) * 2, diagnostics * 2)
            rest = listed.removeprefix(heading)
            check(program, [*arguments, "-H"], capture, ended, rest, errors)
            check(program, ["-H", *twice], b"", ended, rest * 2, diagnostics * 2)


def check_several(program, capture, status, heading, rows, errors):
    """Checks which rows are listed with two options that select sockets, and that the long names of
    letters have the effect of the letters."""
    for one, other in [(one, other) for one in KINDS for other in KINDS]:
        kinds = f"{KINDS[one]} {KINDS[other]}".split()
        chosen = [row for row in rows if row.split()[0].decode() in kinds]
        assert 0 < len(chosen) < len(rows), (one, other)
        check(program, ["-O", one, other], capture, status, heading + b"".join(chosen), errors)
    for letters, names in [
        *((letter, [name]) for letter, name in LONG_NAMES.items()),
        ("-la", ["--listening", "--all"]), ("-al", ["--all", "--listening"]),
        ("-t6nOH", ["--tcp", "--ipv6", "--numeric", "--oneline", "--no-header"]),
    ]:
        expected = run(program, [letters], capture)[:2]
        check(program, names, capture, *expected, errors)


def check_selections(program, capture, heading, rows, errors):
    """Checks which rows are listed with options that select families and states."""
    ip, unix = KINDS["-t"].split() + ["udp", "mptcp"], KINDS["-x"].split()
    choices = [
        (["-l"], lambda kind, state, v6: True), (["-al"], lambda kind, state, v6: True),
        (["-4"], lambda kind, state, v6: kind in ip and not v6),
        (["-6"], lambda kind, state, v6: kind in ip and v6),
        (["-46"], lambda kind, state, v6: kind in ip),
        (["-4t"], lambda kind, state, v6: kind in KINDS["-t"].split() and not v6),
        (["-tx6"], lambda kind, state, v6: kind in unix or kind in KINDS["-t"].split() and v6),
        (["-6lx"], lambda kind, state, v6: kind in unix or kind in ip and v6),
        (["--", "state", "listening"], lambda kind, state, v6: state == "LISTEN"),
        (["--", "state LISTEN"], lambda kind, state, v6: state == "LISTEN"),
        (["--", "state", "Unconn"], lambda kind, state, v6: state == "UNCONN"),
        (["--", "state", "ESTAB"], lambda kind, state, v6: state == "ESTAB"),
        (["-l", "--", "state", "bucket"], lambda kind, state, v6: state == "TIME-WAIT"),
        (["--", "exclude", "close"], lambda kind, state, v6: state != "UNCONN"),
        (["-x4", "--", "state", "time-wait", "state", "closed"],
            lambda kind, state, v6: state in ("TIME-WAIT", "UNCONN") and kind in ip + unix),
    ]
    for arguments, is_selected in choices:
        is_all = "l" not in arguments[0] or "--" in arguments
        chosen = []
        for row in rows:
            kind, state, *_, local = row.decode().split()[:7]
            if is_selected(kind, state, "[" in local) and (is_all or state in ("LISTEN", "UNCONN")):
                chosen.append(row)
        assert 0 < len(chosen) < len(rows), arguments
        check(program, ["-O", *arguments], capture, 0, heading + b"".join(chosen), errors)
    for one, other in [
        ("-4", "inet"), ("-6", "inet6"), ("-x", "unix"), ("-0", "link"), ("-0", "packet"),
        ("--vsock", "vsock"), ("--xdp", "xdp"), ("--family=netlink", "netlink"),
    ]:
        status, table, _ = run(program, [one], capture)
        for arguments in (["-f", other], [f"--family={other}"], ["-nf", other, "-n"]):
            check(program, arguments, capture, status, table, errors)


def check_endpoints(program, capture, heading, rows, errors):
    """Checks which rows are listed with filters. Each row of the table has the filter, the index of
    the column with an end, and which port and address of it meet the filter."""
    ipv4, ipv6 = ipaddress.IPv4Address, ipaddress.IPv6Address
    for text, at, is_met in [
        ("sport = :37265", 6, lambda port, ip: port == 37265),
        ("dport 42067", 7, lambda port, ip: port == 42067),
        ("sport >= 53634", 6, lambda port, ip: port >= 53634),
        ("sport le :7003", 6, lambda port, ip: port <= 7003),
        ("! dport < 1", 7, lambda port, ip: port >= 1),
        ("not ( dport != 0 )", 7, lambda port, ip: port == 0),
        ("sport >= 7003 and sport <= 7013", 6, lambda port, ip: 7003 <= port <= 7013),
        ("sport > 7003 sport < 7013", 6, lambda port, ip: 7003 < port < 7013),
        ("sport = 7003 or sport = :7004", 6, lambda port, ip: port in (7003, 7004)),
        ("src 198.51.100.1", 6, lambda port, ip: ip == ipv4("198.51.100.1")),
        ("dst = 198.51.100.7/29", 7, lambda port, ip: ip == ipv4("198.51.100.2")),
        ("src 127.1.2.3/8", 6, lambda port, ip: ip == ipv4("127.0.0.1")),
        ("dst 0.0.0.0/0", 7, lambda port, ip: ip.version == 4),
        ("dst 128.0.0.0/1", 7, lambda port, ip: ip == ipv4("198.51.100.2")),
        ("dst 0.0.0.0/32", 7, lambda port, ip: ip == ipv4("0.0.0.0")),
        ("src [::1]", 6, lambda port, ip: ip == ipv6("::1")),
        ("src [::1]:7003", 6, lambda port, ip: (port, ip) == (7003, ipv6("::1"))),
        ("dst 0:0::/127", 7, lambda port, ip: ip.version == 6),
        ("dst ::/128", 7, lambda port, ip: ip == ipv6("::")),
        ("src ffff::/0", 6, lambda port, ip: ip.version == 6),
        ("dev = 0", 6, lambda port, ip: True),
    ]:
        chosen = []
        for row in rows:
            kind, (ip, _, port) = row.split()[0], row.split()[at].decode().rpartition(":")
            is_ip = kind in (b"inet", b"inet6", b"tcp", b"udp", b"mptcp")
            if is_ip and is_met(int(port.replace("*", "0")), ipaddress.ip_address(ip.strip("[]"))):
                chosen.append(row)
        assert 0 < len(chosen) < len(rows), text
        for words in ([text], text.split()):
            check(program, ["-O", "--", *words], capture, 0, heading + b"".join(chosen), errors)
    for text in ("src [::ffff:127.0.0.1]", "sport > 7004 and sport < 7013", "dst 2001:db8::/32",
                 "fwmark = 7"):
        check(program, ["-O", "--", text], capture, 0, heading, errors)


def check_filters(program):
    """Compares the lines about texts that are no filters."""
    for text, word in [
        ("sport = 65536", "65536"), ("dport ssh", "ssh"), ("src 1.2.3", "1.2.3"),
        ("src 1.2.3.4/33", "1.2.3.4/33"), ("dst ::/129 sport", "::/129"), ("-t", "-t"),
        ("src localhost", "localhost"), ("state UNKNOWN", "UNKNOWN"), ("sport = 1 )", ")"),
        ("sport = 1 state all", "state"), ("sport \x1b 1", r"\x1b"),
    ]:
        line = f"sslist: unexpected {word} in the filter; try sslist --help\n"
        check(program, ["--", *text.split()], b"", 2, b"", re.escape(line.encode()))
    for text in ("sport =", "( sport = 1", "state", "not", "dport = 1 and"):
        line = rb"sslist: the filter is not complete; try sslist --help\n"
        check(program, ["--", text], b"", 2, b"", line)
    line = rb"sslist: more than 256 parts in the filter at autobound\n"
    check(program, ["--", "not autobound " * 128 + "autobound"], b"", 2, b"", line)
    line = rb"sslist: a capture does not contain what autobound tests\n"
    check(program, ["--", "not autobound"], b"", 2, b"", line)


def test_json(program):
    """Parses the lines of JSON for the stored capture. They are of the sockets of the table."""
    capture = CAPTURE.read_bytes()
    file_header = capture[:24]
    status, printed, errors = run(program, ["--json"], capture)
    table = run(program, ["-OH"], capture)
    assert (status, errors) == (table[0], table[2]), (status, errors)
    lines, rows = printed.splitlines(True), table[1].decode().splitlines()
    assert len(lines) == len(rows) > 0, (len(lines), len(rows))
    for text, row in zip(lines, rows):
        line = json.loads(text, object_pairs_hook=dict_of_pairs)
        again = json.dumps(line, separators=(",", ":"), ensure_ascii=False).encode() + b"\n"
        assert again == text, (again, text)
        netid, state, *_ = row.split()
        assert (line["netid"], line["state_name"]) == (netid, state), (text, row)
    for arguments in (["--json", "-H"], ["--json", "--requests", "-oemiO", "--utf8"]):
        check(program, arguments, capture, status, printed, re.escape(errors))
    for option in ("-x", "-t", "-l"):
        kept = [it for it, row in zip(lines, rows) if row in selected(program, option, capture)]
        check(program, ["--json", option], capture, status, b"".join(kept), re.escape(errors))
    bodies = [[16, *bytes(27)], [17, 3, *bytes(14)], [40, *bytes(31)], [44, *bytes(15)]]
    others = run(program, ["--json"], file_header + b"".join(map(packet, bodies)))[1]
    netids = [json.loads(it)["netid"] for it in others.splitlines()]
    assert netids == ["nl", "p_raw", "vsock", "xdp"], others


def dict_of_pairs(pairs):
    """Returns the dictionary of the members of an object, whose names have to differ."""
    assert len(dict(pairs)) == len(pairs), pairs
    return dict(pairs)


def selected(program, option, capture):
    """Returns the rows of the table that an option selects."""
    return run(program, ["-OH", option], capture)[1].decode().splitlines()


if __name__ == "__main__":
    is_rust = sys.argv[1:2] == ["--rust"]
    if len(sys.argv) != 3 + is_rust:
        print("usage: tests/programs.py [--rust] SOCKDIAG SSLIST", file=sys.stderr)
        sys.exit(2)
    sockdiag, sslist = map(os.path.abspath, sys.argv[1 + is_rust :])
    failed = []
    tests = [(test_sockdiag, sockdiag), *((it, sslist) for it in (
        test_sslist, test_options, test_letters, test_rejections, test_terminal, test_json,
        test_unreadable_file))]
    if not is_rust:
        tests += [(test_sockdiag_not_open, sockdiag), (test_sslist_not_open, sslist)]
    for test, program in tests:
        before = len(failures)
        try:
            test(program)
        except Exception:
            failures.append(traceback.format_exc())
        failed += [test.__name__] * (len(failures) > before)
    last = ", ".join([f"tests/programs.py: {len(failures)} errors", *failed])
    print(*failures, last, sep="\n")
    sys.exit(bool(failures))
