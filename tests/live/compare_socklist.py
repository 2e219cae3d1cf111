#!/usr/bin/env python3
"""Compares everyday commands of ss(8) with those of socklist.

    tests/live/compare_socklist.py SOCKLIST

The script creates more than 300 sockets of all families that the kernel has. With the arguments of
each row of COMMANDS and FILTERS both programs have to list the same sockets, with the same states,
queues, addresses, names and processes; of each row of DETAILS, with the same values in their
details; and with -s, -E and -K to count, show and close the same ones. Differences are printed, and
the exit status is 1 if there is one. The netlink sockets of both programs are left out.

It is not part of the gate. It needs root, for a new network namespace, and iproute2; next to
SOCKLIST, or on PATH, are sockdump and sslist.
"""

import os
import re
import socket
import struct
import subprocess
import sys
import tempfile
import time

sys.dont_write_bytecode = True
import compare_ss
from compare_ss import (DATAGRAM, INET, INET6, MPTCP, NETLINK, PACKET, PACKETS, STREAM, UNIX, bound,
    pair)

# Arguments for both programs.
COMMANDS = ["-tlnp", "-tanp", "-tulpn", "-tn", "-ta", "-uap", "-tuap", "-xap", "-xp", "-x", "-4tln",
    "-6tuan", "-4", "-6", "-0anp", "-0a", "-0", "-Map", "-np", "-f inet6 -a", "-A udp,unix -a",
    "-a -A netlink", "-af netlink", "-f netlink", "-f netlink -na", "-an", "-a", "", "-tar", "-tanr",
    "-r"]
FILTERS = ["-tn state established", "-tan state time-wait", "-tn dport = :443", "-t dport = :https",
    "-tan sport >= :80 and sport <= :443", "-4tn dst 127.0.0.0/8",
    "state established ( dport = :https or sport = :ssh )", "-tan ! dst 127.0.0.1 sport > 80",
    "-tan src localhost", "-6tan dst [::1]:22", "-uan src 127.0.0.1:9000 or src 127.0.0.1:9001",
    "-tuan dev = lo", "-tan fwmark = 0", "-ta exclude established exclude listening", "-l sport = :7001",
    "-tanp state connected dport neq :443 and not ( sport = 443 )",
    "-N NAME -tan", "-N NAME state listening sport = :7100"]
# Arguments with which the details of sockets are compared.
DETAILS = ["-tanoemi", "-uanem", "-xanem", "-Mani", "-0ane", "-tani dst 127.0.0.1"]
# Details that change from one run to the next.
CHANGING = {"timer", "lastsnd", "lastrcv", "lastack"}
NAME_SPACE = "compare_socklist"
def to_interface(family, kind, address):
    """Returns a socket that is bound to the loopback interface (SO_BINDTODEVICE)."""
    made = socket.socket(family, kind)
    made.setsockopt(socket.SOL_SOCKET, 25, b"lo\0")
    made.bind(address)
    if kind == STREAM:
        made.listen(3)
    return made


def make_more():
    """Returns further sockets, among them connections to ports of services, in TIME-WAIT too."""
    kept = [bound(*it, 200) for it in ((INET, STREAM, ("127.0.0.1", 443)),
            (INET, STREAM, ("127.0.0.1", 80)), (INET6, STREAM, ("::1", 22)))]
    for listener in tuple(kept):
        kept += [end for _ in range(25) for end in pair(listener.family, listener)]
    for end in (end for _ in range(10) for end in pair(INET, kept[0])):
        end.close()
    kept += [to_interface(INET, it, ("127.0.0.53", 53)) for it in (STREAM, DATAGRAM)]
    kept += [bound(INET, DATAGRAM, ("127.0.0.1", port)) for port in range(9000, 9030)]
    kept += [bound(PACKET, socket.SOCK_RAW, ("lo", 0x800)) for _ in range(5)]
    kept += [bound(NETLINK, socket.SOCK_RAW, (0, 1), protocol=0) for _ in range(5)]
    for kind in 10 * (STREAM, DATAGRAM, PACKETS):
        kept += socket.socketpair(UNIX, kind)
    for port in range(9100, 9110):
        kept.append(bound(INET6, DATAGRAM, ("::1", port)))
        kept[-1].connect(("::1", 123))
    kept.append(bound(INET, STREAM, ("127.0.0.1", 7020), 4, MPTCP))
    return kept + [end for _ in range(3) for end in pair(INET, kept[-1], MPTCP)]


def users(line):
    """Returns the processes in a line, whose order does not count."""
    found = re.search(r"users:\(\((.*)\)\)", line)
    return tuple(sorted(found[1].split("),("))) if found else ()


def ours(line):
    """Returns the kind, the state, the queues, the addresses and the processes of a socket. Of
    netlink sockets ss shows no other process than that of the port id."""
    netid, state, received, sent, inode, _, local, peer = line.split()[:8]
    if netid.startswith("u_"):
        peer = inode, "*" if peer == "0" else peer
    return netid, state, received, sent, local, peer, () if netid == "nl" else users(line)


def theirs(line, only_kind, only_state):
    """Returns the same of a line of ss, which omits the kind and the state if there is only one."""
    unix = re.match(r"(u_...) +(\S+) +(\d+) +(\d+) +(.*?) (\d+) +\* (\d+)", line)
    if unix:
        netid, state, received, sent, local, inode, peer = unix.groups()
        peer = inode, "*" if peer == "0" else peer
        return netid, state, received, sent, local, peer, users(line)
    words = line.split()
    netid = words.pop(0) if words[0] in compare_ss.NETIDS else only_kind
    state = only_state or words.pop(0)
    received, sent, local, peer = words[:4]
    # Newer versions of ss name ETH_P_IP otherwise.
    local = re.sub(r"^\[(\d+)\]:", r"\1:", local.replace("ipv4:", "ip:"))
    if netid == "nl":
        local = compare_ss.end(local, netid)
    return netid, state, received, sent, local, peer, users(line)


def lines(program, command):
    """Returns the lines that a program prints, without a heading."""
    words = command.replace("NAME", NAME_SPACE).split()
    done = subprocess.run([program, "-OH", *words], stdout=subprocess.PIPE, text=True, check=True)
    return done.stdout.splitlines()


def report(what, found, differing):
    """Prints the differences, and returns their number."""
    print(f"{what}: {found} sockets, {len(differing)} differences", *differing, sep="\n  ")
    return len(differing)


def differences(expected, found):
    """Returns the sockets that one of the programs lists, except for those of their requests."""
    differing = []
    for one, rest, name in ((expected, list(found), "ss"), (found, list(expected), "socklist")):
        for it in one:
            if it in rest:
                rest.remove(it)
            elif it[0] != "nl" or not re.match("4:|tcpdiag:", it[4]):
                differing.append(f"only {name}: {it}")
    return differing


def only(command):
    """Returns the kind and the state that ss omits, since there is only one."""
    kind = next((name for letter, name in (("u", "udp"), ("M", "mptcp"), ("0", "p_raw"), ("x", "u"))
                 if re.search(rf"(^| )-\w*{letter}", command)),
                "nl" if "netlink" in command else "tcp")
    state = "".join(re.findall(r"\bstate (established|time-wait|listening)", command))
    if command in ("-0", "-f netlink"):
        state = "closed"
    return kind, {"established": "ESTAB", "time-wait": "TIME-WAIT", "listening": "LISTEN",
                  "closed": "UNCONN"}.get(state)


def compare(program, command):
    """Compares the sockets that both programs list. Returns the number of differences."""
    expected = [theirs(it, *only(command)) for it in lines("ss", command)]
    found = [ours(it) for it in lines(program, command)]
    return report(command or "without arguments", len(found), differences(expected, found))


def values_of(line):
    """Returns the key of a socket in a line of socklist, its columns, and its details by name."""
    netid, state, received, sent, inode, _, local, peer, *words = line.split()
    found = {"netid": netid, "words": words}
    for word in words:
        name, _, value = re.sub(r"(?<=\d)([um]s|B/s)$", "", word).partition(":")
        found.setdefault(name, value)
    is_unix = netid.startswith("u_")
    return inode if is_unix else (compare_ss.end(local, netid), compare_ss.end(peer, "")), found


def compare_details(program, command):
    """Compares the details that both programs show of a socket. Returns the number of those that
    differ."""
    sockets, differing, compared = {}, [], 0
    for key, found in map(values_of, lines(program, command)):
        sockets.setdefault(key, []).append(found)
    for key, _, words in map(compare_ss.shown, lines("ss", command)):
        found = sockets[key].pop(0)
        for name, value in compare_ss.values(words):
            result = None if name in CHANGING else compare_ss.differs(found, name, value)
            compared += result is not None
            if result:
                differing.append(f"{key}: ss has {name}:{value}, socklist {found.get(name)}")
    return report(f"{command}, {compared} details", len(lines(program, command)), differing)


def compare_summary(program):
    """Compares the numbers of sockets by their kinds. Returns the number of differences."""
    expected, found = (
        dict(re.findall(r"(?m)^(RAW|UDP|TCP)\s+(\d+ +\d+ +\d+)", "\n".join(lines(it, "-s")))
             + re.findall(r"(estab|orphaned|timewait) (\d+)", "\n".join(lines(it, "-s"))))
        for it in ("ss", program))
    expected, found = ({name: it.split() for name, it in one.items()} for one in (expected, found))
    differing = [f"{name}: ss {it}, socklist {found.get(name)}" for name, it in expected.items()
                 if it != found.get(name)]
    return report(f"-s {found}", "all", differing)


def compare_events(program, words):
    """Compares the sockets that both programs show as they are destroyed. By itself, ss does not
    flush what it prints to a pipe."""
    running = [subprocess.Popen([*it, "-EtnOH", *words], stdout=subprocess.PIPE, text=True)
               for it in (("stdbuf", "-oL", "ss"), (program,))]
    time.sleep(1)
    listener = bound(INET, STREAM, ("127.0.0.1", 7200), 20)
    for end in (end for _ in range(5) for end in pair(INET, listener)):
        end.setsockopt(socket.SOL_SOCKET, socket.SO_LINGER, struct.pack("ii", 1, 0))
        end.close()
    listener.close()
    time.sleep(1)
    for it in running:
        it.terminate()
    expected, found = (it.communicate()[0].splitlines() for it in running)
    expected, found = [theirs(it, "tcp", None) for it in expected], [ours(it) for it in found]
    return report(f"-Etn {' '.join(words)}", len(found), differences(expected, found))


def compare_closed(program):
    """Has both programs close connections of the same kind. Returns the number of differences."""
    left = []
    for index, words in enumerate((["ss", "-K"], [program, "-K", "--yes"])):
        port = 7300 + index
        listener = bound(INET, STREAM, ("127.0.0.1", port), 20)
        kept = [end for _ in range(5) for end in pair(INET, listener)]
        words += ["-tnOH", "dst", "127.0.0.1", "dport", "=", f":{port}"]
        listed = subprocess.run(words, stdout=subprocess.PIPE, text=True, check=True).stdout
        left.append((len(listed.splitlines()), len(lines("ss", f"-tan dport = :{port}"))))
        del kept
    return report(f"-K: closed and left {left}", left[0][0], [] if left[0] == left[1] else left)


def main():
    # A new network namespace, and a new mount namespace, for the files of `ip netns`.
    calls = compare_ss.ctypes.CDLL(None)
    os.makedirs("/run/netns", exist_ok=True)
    if (calls.unshare(0x40020000) != 0 or calls.mount(b"none", b"/", None, 0x44000, None) != 0
            or calls.mount(b"none", b"/run/netns", b"tmpfs", 0, None) != 0):
        sys.exit("compare_socklist.py: this needs root")
    for words in ("link set lo up", f"netns add {NAME_SPACE}"):
        subprocess.run(["ip", *words.split()], check=True)
    elsewhere = ("import socket, sys; it = socket.socket(); it.bind(('', 7100)); it.listen();"
                 "sys.stdin.read()")
    program = sys.argv[1]
    with (tempfile.TemporaryDirectory() as folder,
          subprocess.Popen(["ip", "netns", "exec", NAME_SPACE, sys.executable, "-c", elsewhere],
                           stdin=subprocess.PIPE)):
        kept = [*compare_ss.make_sockets(folder), *make_more()]
        time.sleep(0.5)
        wrong = sum(compare(program, it) for it in COMMANDS + FILTERS)
        wrong += sum(compare_details(program, it) for it in DETAILS)
        wrong += compare_summary(program) + compare_closed(program)
        wrong += sum(compare_events(program, it) for it in ([], ["sport", "=", ":7200"]))
        print(f"{len(kept)} sockets opened, {wrong} differences")
        del kept
    return 1 if wrong else 0


if __name__ == "__main__":
    sys.exit(main())
