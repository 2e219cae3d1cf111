#!/usr/bin/env python3
"""Runs example listers with the replies of other kernels, and compares what they print. c_api.sh
and erased.sh run this script.

    tests/api/kernels.py [--rust] LISTER..

A text of tests/api/kernels has replies, and the words of the line that a lister prints for each.
(The captures there, of real kernels, are for reply_reader.py and answers.py.) fake_kernel.c, which
is preloaded, answers the requests of the lister with them. A lister has to print a line for each
reply, in the order of the file, with these words and no others, and end with status 0, also if
signals interrupt its calls, if each datagram has a message of another type, and if the first nine
dumps of a request are interrupted or lose data. The text of an error, which is in parentheses, is
not compared. A lister that takes arguments has to print the lines with a local port, and with -l
those of sockets that listen. The lister list_rtt has to print the established TCP connections.

A lister has to print no character that could control a terminal. It has to end with status 1,
without a line, if it cannot open a socket, connect to the kernel or receive from it, and if each
datagram is longer than its buffer or truncated. It also has to end with status 1, after the lines,
if ten dumps of a request are interrupted or lose data, if a dump ends with an error or with an
invalid number, if another reply is too short, and if its output cannot be written. If standard
input, output or error is not open, it has to end with status 1 before it opens a socket. A lister
in Rust has to end with status 0: before it begins, Rust's runtime opens /dev/null in place of
these.

The attributes of the replies about TCP, UDP and MPTCP sockets have to be in the order in which the
kernel sends them. The exit status is 1 if they are not, or if a lister fails.
"""

import os
import re
import subprocess
import sys
import tempfile
from pathlib import Path

sys.dont_write_bytecode = True
import reply_reader

HERE = Path(__file__).resolve().parent
# The protocols of sockets with a port.
PROTOCOLS = ("tcp", "udp", "mptcp")
# The order in which Linux 5.10 to 7.3 send the attributes of an IPv4 or IPv6 socket.
ORDER = (8, 5, 6, 11, 15, 17, 21, 22, 1, 7, 2, 4, 3, 9, 16, 18, 19)
# Numbers of bytes by which datagrams exceed the buffer, and that they lack.
EXCESSES = ("1", "4", "60000")
LACKS = ("1", "4", "19")
# The error if standard input, output or error is not open.
NOT_OPEN = "standard input, output or error is not open"
# Files, and a reply of a protocol that is too short.
SHORT = (("tcp-info", "tcp", "020100"), ("linux-6.18", "unix", "010100"),
         ("linux-6.18", "udp", "020100"), ("linux-6.18", "mptcp", "020100"),
         ("netlink-and-packet", "netlink", "100000"), ("netlink-and-packet", "packet", "110000"))
# How often a dump is requested, if it is always interrupted, and the error then.
ATTEMPTS = 10
INTERRUPTED = "interrupted, or data lost, at each attempt"
# Numbers with which a dump ends, and the texts of the errors. Error numbers are -4095 to -1.
ENDS = (("-1", "Operation not permitted"), ("-4095", "Unknown error 4095"),
        *((it, "Protocol error") for it in ("", "1", "2", "-4096", "-2147483648")))


def replies():
    """Returns the files with replies that were made by hand."""
    return sorted(it for it in (HERE / "kernels").iterdir() if it.suffix != ".gz")


def has_kernel_order(file):
    """Returns whether the attributes of each reply are in the order in which the kernel sends
    them."""
    lines = re.findall(rf"(?m)^(?:{'|'.join(PROTOCOLS)}) (\w+)$", file.read_text())
    for digits in lines:
        kinds = [kind for kind, _ in reply_reader.split(bytes.fromhex(digits), 72)]
        if kinds != sorted(kinds, key=ORDER.index):
            print(f"kernels: {file.name}: the kernel sends attributes {kinds} in another order")
            return False
    return True


def is_list_rtt(lister):
    """Returns whether the lister lists round-trip times only."""
    return Path(lister).name == "list_rtt"


def build(folder):
    """Compiles fake_kernel.c as a shared library, and returns its path."""
    library = f"{folder}/fake_kernel.so"
    words = [os.environ.get("CC", "cc"), "-std=c99", "-O2", "-shared", "-fPIC", "-o", library]
    words += [f"-I{HERE.parent.parent}/include", str(HERE / "fake_kernel.c")]
    subprocess.run(words, check=True)
    return library


def compared_words(line):
    """Returns the words of a line that every lister prints."""
    return re.sub(r" \(.*\)$", "", line).split()


def environment(library, file, **variables):
    """Returns an environment with the replies of the file."""
    return os.environ | {"LD_PRELOAD": library, "FAKE_KERNEL_REPLIES": str(file)} | variables


def without(closed):
    """Returns a function that closes the descriptor, if there is one, before a program starts."""
    return lambda: closed is None or os.close(closed)


def run(lister, library, file, *arguments, closed=None, **variables):
    """Runs the lister with the replies of the file."""
    how = {"env": environment(library, file, **variables), "capture_output": True, "timeout": 60}
    done = subprocess.run([lister, *arguments], preexec_fn=without(closed), **how)
    done.stdout, done.stderr = done.stdout.decode("latin-1"), done.stderr.decode("latin-1")
    # Each line of an error begins with the name of the program.
    if done.returncode == 1 and re.search(rf"(?m)^(?!{Path(lister).name}: ).", done.stderr):
        done.returncode = "1 of an error without the name of the program"
    return done


def report(lister, done, what, expected):
    """Prints what a lister did, and what it had to print. Returns False."""
    print(f"kernels: {lister} with {what}: status {done.returncode}, printed:",
          *done.stdout.splitlines(), "standard error:", *done.stderr.splitlines(), "expected:",
          *expected, sep="\n  ")
    return False


def is_listed(line, arguments):
    """Returns whether list_sockets prints a line with these arguments, -l and ports."""
    protocol, *words = line.split()
    state = line.partition(" state ")[2].partition(" ")[0]
    listens = state == ("7" if protocol == "udp" else "10")
    return all(listens if it == "-l" else protocol in PROTOCOLS and words[3] == it
               for it in arguments)


def line_of_rtt(line):
    """Returns the line that list_rtt prints for a line of list_sockets, or None."""
    found = re.match(r"tcp state 1 (.*?) uid \d+ inode \d+(?:.*( rtt \d+us))?", line)
    return found and found[1] + (found[2] or "")


def compare(lister, library, file, *arguments, status=0, error="", **variables):
    """Runs the lister with the replies of the file. Returns whether it prints what it has to,
    reports this error, and ends with this status."""
    lines = [line[2:] for line in file.read_text().splitlines() if line.startswith("= ")]
    expected = [line for line in lines if is_listed(line, arguments)]
    if is_list_rtt(lister):
        expected = list(filter(None, map(line_of_rtt, lines)))
    done = run(lister, library, file, *arguments, **variables)
    found = [compared_words(line) for line in done.stdout.splitlines()]
    is_listed_all = found == [line.split() for line in expected]
    if is_listed_all and done.returncode == status and error in done.stderr:
        return True
    what = f"the replies of {file.name} {arguments} {variables}"
    return report(lister, done, what, [*expected, f"status {status} {error}"])


def compare_arguments(lister, library, file):
    """Runs the lister with -l, with each local port of the file and those next to it, with ports
    that have all digits, and with both. Returns whether it prints what it has to. A lister that
    takes no port does not reject the port 0."""
    if run(lister, library, file, "0").returncode != 2:
        return True
    lines = re.findall(rf"(?m)^= ({'|'.join(PROTOCOLS)}) state \d+ \S+ (\d+) ", file.read_text())
    ports = {int(port) + step for _, port in lines for step in (-1, 0, 1)} & {*range(1, 65536)}
    ports |= {12345, 60789}
    with_port = [(*options, str(port)) for port in sorted(ports) for options in ((), ("-l",))]
    return all(compare(lister, library, file, *it) for it in [("-l",), *with_port])


def is_safe(lister, library, folder):
    """Runs the lister with names that have each byte. Returns whether it prints printable ones."""
    replies = []
    for start in (b"\0", b""):
        name = start + bytes([*range(1, 256)]) + b"\0"
        head = bytes([1, 1, 7, *bytes(13)])
        replies.append(head + (4 + len(name)).to_bytes(2, "little") + b"\0\0" + name + b"\0" * 3)
    file = Path(folder, "names")
    file.write_text("".join(f"unix {it.hex()}\n" for it in replies))
    done = run(lister, library, file)
    if done.returncode == 0 and re.fullmatch(r"(unix [ -~]+\n){2}", done.stdout):
        return True
    return report(lister, done, "names that have each byte", ["two lines of printable characters"])


def fails(lister, library, file, error="", **variables):
    """Returns whether the lister prints no line, reports this error, and ends with status 1."""
    done = run(lister, library, file, **variables)
    if done.returncode == 1 and not done.stdout and done.stderr and error in done.stderr:
        return True
    return report(lister, done, variables, [f"no line, an error {error}, and status 1"])


def reports_short_reply(lister, library, file, folder, protocol, digits):
    """Runs the lister with the replies of the file and one that is too short, before the last one
    of a protocol. Returns whether it prints the others, and ends with status 1."""
    changed = Path(folder, "short")
    start, mark, end = file.read_text().rpartition(f"\n{protocol} ")
    changed.write_text(f"{start}{mark}{digits}{mark}{end}")
    return compare(lister, library, changed, status=1)


def repeats_dumps(lister, library, file, **how):
    """Returns whether the lister repeats a dump that was interrupted, and reports it if it was
    interrupted at the last attempt."""
    last, more = str(ATTEMPTS - 1), str(ATTEMPTS)
    return (compare(lister, library, file, FAKE_KERNEL_INTERRUPTIONS=last, **how)
            and compare(lister, library, file, status=1, error=INTERRUPTED,
                        FAKE_KERNEL_INTERRUPTIONS=more, **how))


def reports_full_disk(lister, library, file, is_rust):
    """Returns whether the lister fails if its output cannot be written."""
    name = Path(lister).name if is_rust else f"{Path(lister).name}: standard output"
    error = f"{name}: No space left on device"
    with open("/dev/full", "wb") as full:
        done = subprocess.run([lister], env=environment(library, file), stdout=full,
                              stderr=subprocess.PIPE, timeout=60)
    if done.returncode == 1 and error in done.stderr.decode():
        return True
    print(f"kernels: {lister} >/dev/full: status {done.returncode}, expected 1 and {error}")
    return False


def opens_no_stream(lister, library, file, is_rust):
    """Runs the lister without standard input, output or error. Returns whether it opens no socket
    in its place, with which the kernel aborts it."""
    for closed in range(3):
        done = run(lister, library, file, closed=closed)
        is_error = done.returncode == 1 and not done.stdout and (
            NOT_OPEN in done.stderr or closed == 2)
        if done.returncode != 0 if is_rust else not is_error:
            return report(lister, done, f"descriptor {closed} closed",
                          ["status 0"] if is_rust else ["status 1", NOT_OPEN])
    return True


def is_right(lister, library, files, folder, is_rust):
    """Runs the lister in all ways. Returns whether it does what it has to. Every kernel has TCP, so
    list_rtt reports a file without TCP sockets as an error."""
    results = [compare(lister, library, file) for file in files
               if not is_list_rtt(lister) or "\ntcp " in file.read_text()]
    results += [fails(lister, library, files[0], "Operation not permitted", **it) for it in (
        *({"FAKE_KERNEL_REFUSES": call} for call in ("connect", "socket")),
        {"FAKE_KERNEL_DENIES": "1"})]
    results += [fails(lister, library, files[0], "Message too long", FAKE_KERNEL_EXCESS=it)
                for it in EXCESSES]
    results += [fails(lister, library, files[0], INTERRUPTED, FAKE_KERNEL_LACK=it) for it in LACKS]
    results.append(compare(lister, library, files[0], FAKE_KERNEL_SIGNALS="1"))
    results.append(compare(lister, library, files[0], FAKE_KERNEL_ODD="1"))
    results.append(repeats_dumps(lister, library, files[0]))
    results.append(repeats_dumps(lister, library, files[0], FAKE_KERNEL_OVERRUN="1"))
    results += [compare(lister, library, files[0], status=1, error=error, FAKE_KERNEL_END=it)
                for it, error in ENDS]
    results += [reports_short_reply(lister, library, HERE / "kernels" / file, folder, *short)
                for file, *short in SHORT if short[0] == "tcp" or not is_list_rtt(lister)]
    results += [reports_full_disk(lister, library, file, is_rust) for file in files
                if not is_list_rtt(lister) or "\ntcp " in file.read_text()]
    results.append(opens_no_stream(lister, library, files[0], is_rust))
    if not is_list_rtt(lister):
        results += [compare_arguments(lister, library, file) for file in files]
        results.append(is_safe(lister, library, folder))
    return all(results)


def main():
    files, is_rust = replies(), sys.argv[1:2] == ["--rust"]
    listers = sys.argv[1 + is_rust :]
    with tempfile.TemporaryDirectory() as folder:
        library = build(folder)
        results = [*map(has_kernel_order, files)]
        results += [is_right(it, library, files, folder, is_rust) for it in listers]
    if not all(results):
        return 1
    listed = " ".join(Path(it).name for it in listers)
    names = " ".join(file.name for file in files)
    print(f"kernels: {listed}: every socket is listed: {names}")
    return 0


if __name__ == "__main__":
    sys.exit(main())
