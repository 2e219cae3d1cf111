#!/usr/bin/env python3
"""Compares the output of sslist with the output of ss(8) for the same netlink messages.

    tests/live/compare_ss.py               compares for each list of options in OPTIONS
    tests/live/compare_ss.py OPTIONS ..    compares for these lists. A list is one argument, as in
                                          "-an --vsock"

The script creates sockets of many kinds. A library that is preloaded into ss (record.c) records
what ss sends and receives on AF_NETLINK as a capture, which sslist lists. sslist has to list each
socket that ss shows, print the same value wherever both print one, and end with status 0.

Then it compares what ss lists with what sslist lists of the capture that examples/sockdump.c
writes. Each has to list the sockets of the other, with equal columns.

Differences are printed, and the exit status is 1 if there is one.

Without arguments it also compares which sockets both list with options that select sockets: ss of
the running system, and sslist of the capture of all sockets. Netlink sockets are left out, as each
run of ss has its own.

It is not part of the gate. It needs gcc, iproute2 and the built sslist. As root it uses a new
network namespace. In a guest of boot_kernels.py it has the option --guest, and takes the sockets
that are open there, and the programs in /bin.
"""

import ctypes
import os
import re
import socket
import subprocess
import sys
import tempfile
from pathlib import Path

TOP = Path(__file__).resolve().parents[2]
IS_GUEST = sys.argv[1:] == ["--guest"]
LISTER = Path("/bin/sslist") if IS_GUEST else TOP / "crates/sslist/out/sslist"
OPTIONS = ["-tanioem", "-uanioem", "-xanem", "-anMei", "-s"]
OPTIONS += ["-0anem", "-anemf netlink", "-anem --vsock", "-anem --xdp", "-an", "-anem"]
# In a guest of boot_kernels.py, without those that list sockets for which ss prints no protocol.
OPTIONS_OF_GUESTS = [it for it in OPTIONS if it not in ("-s", "-an", "-anem")] + ["-anS"]
# Options for both programs, of the comparisons with sockdump.
OF_DUMPS = ["-tan", "-uan", "-xan", "-Man", "-0an", *["-an"] * (not IS_GUEST)]
# Options and filters that select sockets, for ss and for sslist. PORT is the port of a TCP socket.
SELECTIONS = [(f"-{it}n", f"-{it}n") for it in ("tl", "4a", "6a", "l", "xl", "ul", "4ta", "6xa")]
SELECTIONS += [(f"-an -f {it}", f"-n -f {it}") for it in ("inet", "inet6", "unix", "link")]
# For a single state ss leaves out the column.
SELECTIONS += [(f"-an state last-ack state {it}", f"-- state last-ack state {it}") for it in (
    "established", "time-wait", "listening", "closed", "connected", "synchronized", "bucket", "big")]
SELECTIONS += [(f"-tan {it} :PORT", f"-t -- {it} :PORT") for it in (
    "sport =", "dport =", "sport >=", "sport <=")]
INET, INET6, UNIX = socket.AF_INET, socket.AF_INET6, socket.AF_UNIX
STREAM, DATAGRAM, PACKETS = socket.SOCK_STREAM, socket.SOCK_DGRAM, socket.SOCK_SEQPACKET
MPTCP = 262
NETLINK, PACKET = socket.AF_NETLINK, socket.AF_PACKET
NETIDS = ["tcp", "udp", "mptcp", "u_str", "u_dgr", "u_seq", "nl", "p_raw", "p_dgr", "v_str",
    "v_dgr", "v_seq", "xdp"]
# Names of values in sslist, if ss uses another name.
OTHERWISE = {"bytes_sent": "sent", "bytes_received": "received"}
# Values that ss prints in milliseconds with a fraction, and sslist in microseconds.
MILLISECONDS = {"rto", "minrtt", "rcv_rtt", "ato"}
RATES = {"pacing_rate", "delivery_rate"}
# Numbers of MPTCP that sslist prints in hexadecimal digits, and newer versions of ss do not.
HEXADECIMAL = {"seq", "ssnoff", "maplen", "write_seq", "snd_una", "rcv_nxt"}
FLAGS = {"ts", "sack", "ecn", "ecnseen", "fastopen", "app_limited", "<->", "-->", "<--", "---"}
FLAGS |= {"running", "auxdata", "origdev", "vnethdr", "loss"}


def bound(family, kind, address, backlog=None, protocol=0, options=()):
    """Returns a socket bound to the address, if there is one. It listens if a backlog is given."""
    made = socket.socket(family, kind, protocol)
    for option in options:
        made.setsockopt(*option)
    if address is not None:
        made.bind(address)
    if backlog is not None:
        made.listen(backlog)
    return made


def pair(family, listener, protocol=0):
    """Returns a client that is connected to the listener, and the accepted socket."""
    client = socket.socket(family, listener.type, protocol)
    client.connect(listener.getsockname())
    return [client, listener.accept()[0]]


def make_others():
    """Returns packet and netlink sockets, which need root: among them one bound to an interface
    with PACKET_AUXDATA of packet(7), one that is connected, and one in a multicast group."""
    auxdata = [(263, 8, 1)]
    packets = [socket.socket(PACKET, socket.SOCK_RAW, socket.htons(3))]
    packets += [bound(PACKET, DATAGRAM, ("lo", 0x806), options=auxdata)]
    one, other = (bound(NETLINK, socket.SOCK_RAW, (port, 0), protocol=2) for port in (4242, 4343))
    other.connect((4242, 4))
    return [*packets, one, other, bound(NETLINK, DATAGRAM, (0, 1), protocol=16)]


def make_sockets(folder):
    """Returns sockets of many kinds and states. They stay open as long as they are referenced."""
    others = make_others() if os.geteuid() == 0 else []
    four = bound(INET, STREAM, ("127.0.0.1", 7001), 5)
    only_six = (socket.IPPROTO_IPV6, socket.IPV6_V6ONLY, 1)
    six = bound(INET6, STREAM, ("::1", 7004), 9, options=[only_six])
    both = bound(INET6, STREAM, ("::", 7003), 9)
    named = bound(UNIX, STREAM, f"{folder}/stream", 5)
    packets = bound(UNIX, PACKETS, f"{folder}/packets", 7)
    kept = [*others, four, six, both, named, packets, bound(INET, STREAM, ("0.0.0.0", 7002), 128)]
    kept += [bound(INET, DATAGRAM, ("127.0.0.1", 8001)), bound(INET6, DATAGRAM, ("::", 8002))]
    kept += [bound(UNIX, STREAM, b"\0abstract", 8), bound(UNIX, DATAGRAM, f"{folder}/datagrams")]
    kept += [bound(UNIX, DATAGRAM, None), *socket.socketpair(), *socket.socketpair(UNIX, DATAGRAM)]
    waiting, mapped = pair(INET, four), socket.socket()
    busy, half = pair(INET6, six), pair(INET, four)
    mapped.connect(("127.0.0.1", 7003))
    waiting[0].sendall(b"x" * 1234)
    busy[1].setsockopt(socket.SOL_SOCKET, socket.SO_KEEPALIVE, 1)
    for _ in range(20):
        busy[0].sendall(b"y" * 10000)
        busy[1].recv(100000)
    half[0].shutdown(socket.SHUT_WR)
    for end in pair(INET, four):
        end.close()
    for _ in range(2):
        kept.append(socket.socket(UNIX, PACKETS))
        kept[-1].connect(f"{folder}/packets")
    connected = pair(UNIX, named)
    connected[0].sendall(b"k" * 321)
    kept += [*waiting, mapped, both.accept()[0], *busy, *half, *connected]
    try:
        paths = bound(INET, STREAM, ("127.0.0.1", 7013), 4, MPTCP)
        kept += [paths, *pair(INET, paths, MPTCP)]
    except OSError as error:
        print(f"skipped: no MPTCP: {error}")
    return kept


def timer(milliseconds):
    """Returns the time of a timer as ss prints it."""
    minutes, rest = divmod(milliseconds, 60000)
    seconds, rest = divmod(rest, 1000)
    if minutes:
        rest, seconds = 0, 0 if minutes > 9 else seconds
    if seconds > 9:
        rest = 0
    text = f"{minutes}min" if minutes else ""
    text += f"{seconds}{'.' if rest else 'sec'}" if seconds else ""
    return text + (f"{rest:03}ms" if rest else "")


def printed(words, **how):
    """Returns what a command prints. Names of sockets may be no text."""
    run = subprocess.run(words, capture_output=True, check=True, **how)
    return run.stdout.decode(errors="replace")


def listed(capture, options=()):
    """Returns the sockets that sslist lists with these options, by key and in order, its standard
    error and its exit status."""
    run = subprocess.run([LISTER, "-H", capture, *options], capture_output=True, check=False)
    sockets, last = {}, None
    for line in run.stdout.decode("ascii").splitlines():
        if not line.startswith("\t"):
            netid, state, received, sent, inode, user, local, peer = line.split()
            last = {"netid": netid, "state": state, "recv": received, "send": sent, "ino": inode,
                "uid": user, "words": []}
            is_unix = netid in ("u_str", "u_dgr", "u_seq")
            key = inode if is_unix else (re.sub(r"%\d+", "", local), peer)
            last["local"], last["peer"] = local, peer
            sockets.setdefault(key, []).append(last)
            continue
        for word in line.split():
            name, _, value = word.partition(":")
            last["words"].append(word)
            last.setdefault(name, value)
    return sockets, run.stderr.decode(), run.returncode


def end(text, netid):
    """Returns an address of ss as sslist prints it. ss prints port ids of netlink as signed."""
    text = re.sub(r":-(\d+)$", lambda it: f":{(1 << 32) - int(it[1])}", text)
    if netid.startswith("p_"):
        protocol, _, interface = text.rpartition(":")
        number = interface if interface == "*" else socket.if_nametoindex(interface)
        return f"{3 if protocol == '*' else protocol.strip('[]')}:{number}" if protocol else text
    queue = re.fullmatch(r"(\w+):q(\d+)", text)
    if queue:
        return f"{socket.if_nametoindex(queue[1])}:{queue[2]}"
    return text if netid.startswith("v_") else re.sub(r"%\w+", "", text)


def shown(line):
    """Returns the key of the socket in a line of ss, its columns, and the remaining words. ss
    prints the last MD5 key of a socket, which is a number here, at the start of the next line."""
    line = re.sub(r"^(\d+| *`- )", "", line)
    unix = re.match(r"(u_...) (\S+)\s+(\d+)\s+(\d+)\s+(.*?) (\d+)\s+(.*?) (\d+)(?:\s+(.*))?$", line)
    if unix:
        columns = {"netid": unix[1], "state": unix[2], "recv": unix[3], "send": unix[4]}
        if unix[8] != "0":
            columns["peer"] = unix[8]
        return unix[6], columns, (unix[9] or "").split()
    # Older versions of ss have no name for vsock sockets of this kind.
    words = re.sub(r"^\?\?\?", "v_seq", line).split()
    columns = {"netid": words.pop(0)} if words[0] in NETIDS else {}
    columns |= dict(zip(("state", "recv", "send"), words))
    local, peer = (end(it, columns.get("netid", "")) for it in words[3:5])
    # ss takes an SCTP socket for an association if the kernel lists it twice, and has no name then.
    columns = {name: it for name, it in columns.items() if it != "(null)"}
    # An XDP socket that is not bound.
    local = "*:0" if (local, peer) == ("*", "*") else local
    return (local, peer), columns, words[5:]


def values(words):
    """Yields the name of each value that ss shows for a socket, and the value as sslist prints it.
    A flag has None."""
    for word, following in zip(words, [*words[1:], ""]):
        name, colon, value = word.partition(":")
        if word in FLAGS:
            yield word, None
        elif word in RATES:
            yield word, int(following.split("/")[0].removesuffix("bps")) // 8
        elif name == "rtt":
            yield from zip(("rtt", "rttvar"), (round(float(it) * 1000) for it in value.split("/")))
        elif name in MILLISECONDS and colon:
            yield name, round(float(value) * 1000)
        elif name == "wscale":
            yield name, f"({value})"
        elif name == "retrans":
            now, total = value.split("/")
            yield "retrans", int(total)
            if now != "0":
                yield "retrans_now", int(now)
        elif name in ("busy", "rwnd_limited", "sndbuf_limited"):
            yield name, int(value.split("ms")[0])
        elif name == "timer":
            yield name, value
        elif word.startswith("groups="):
            yield "groups", hex(int(word.removeprefix("groups="), 16))
        elif colon and re.fullmatch(r"0x[0-9a-f]+|\d+|[0-9a-f]+|\(\w+(,\w+)*\)", value):
            is_number = value.isdigit() and name not in {"sk", *HEXADECIMAL}
            yield OTHERWISE.get(name, name), int(value) if is_number else value


def differs(socket_, name, value):
    """Returns whether sslist prints another value of this name, or None if it prints none."""
    if value is None:
        return name not in socket_["words"] if socket_["words"] else None
    if name == "groups":
        # ss shows a bit for each of the first 32 groups.
        groups = [int(it) for it in socket_.get(name, "").split(",") if it]
        return hex(sum(1 << it - 1 for it in groups if it <= 32)) != value
    if name not in socket_ or name == "ino" and socket_["netid"].startswith("u_"):
        return None
    ours = socket_[name]
    if name == "timer":
        kind, time, again = ours.strip("()").split(",")
        text = f"({kind},{timer(int(time.removesuffix('ms')))},{again})"
        # Newer versions of ss print 2.224sec, and older ones 2.224ms.
        return value not in (text, re.sub(r"(\.\d+)ms", r"\1sec", text))
    if name in HEXADECIMAL:
        return value not in (ours, str(int(ours, 16)))
    if name in ("busy", "rwnd_limited", "sndbuf_limited"):
        return int(ours) // 1000 != value
    if isinstance(value, int) and ours.isdigit():
        return abs(int(ours) - value) > value * 1e-5
    return ours != str(value)


def compare(option, folder, recorder):
    """Compares both programs for a list of options, and prints the differences. Returns 0 if there
    is none and sslist ended with status 0."""
    capture = f"{folder}/capture{option.replace(' ', '')}"
    environment = os.environ | {"LD_PRELOAD": recorder, "CAPTURE": capture}
    ss = ["ss", *option.split(), "-OH"]
    theirs = printed(ss, env=environment)
    sockets, errors, status = listed(capture) if Path(capture).exists() else ({}, "no capture", 0)
    found = compared = wrong = missing = 0
    uncompared = set()
    for line in theirs.splitlines() if option != "-s" else []:
        key, columns, words = shown(line)
        ours = sockets.get(key)
        if not ours:
            missing += 1
            print(f"{option}: not listed by sslist: {line}")
            continue
        found += 1
        ours = ours.pop(0)
        for name, value in [*columns.items(), *values(words)]:
            result = ours[name] not in (value, "-") if name in columns else differs(
                ours, name, value)
            compared += result is not None
            uncompared |= {name} if result is None else set()
            if result:
                wrong += 1
                print(f"{option}: {name} of {key} is {value}, sslist prints {ours.get(name)}")
    print(f"{option}: {found} sockets, {compared} values compared, {wrong} differ,"
          f" {missing} sockets missing, status {status},"
          f" not compared: {' '.join(sorted(uncompared)) or 'nothing'}",
          *errors.splitlines(), sep="\n  ")
    return wrong + missing + status


def is_of_requests(netid, local):
    """Returns whether a socket is of NETLINK_SOCK_DIAG, as those by which ss and sockdump request
    sockets."""
    return netid == "nl" and local.startswith("4:")


def compare_dump(option, capture):
    """Compares the columns of ss and of sslist over a capture of sockdump. Prints the differences,
    and returns their number."""
    ss = ["ss", option, "-OH"]
    theirs = printed(ss).splitlines()
    sockets, errors, status = listed(capture, [option])
    wrong = found = 0
    for line in theirs:
        key, columns, _ = shown(line)
        if is_of_requests(columns.get("netid"), key[0]):
            continue
        ours = sockets.get(key)
        values = {name: ours[0][name] for name in columns} if ours else None
        found += 1
        if values != columns:
            wrong += 1
            print(f"sockdump {option}: {line}: sslist prints {values}")
        if ours:
            ours.pop(0)
    extra = [it for them in sockets.values() for it in them]
    extra = [it for it in extra if not is_of_requests(it["netid"], it["local"])]
    print(f"sockdump {option}: {found} sockets, {wrong} differ, {len(extra)} are not listed by ss,"
          f" status {status}", *errors.splitlines(), *extra, sep="\n  ")
    return wrong + len(extra) + status


def compiled(source, folder, *flags):
    """Returns the path of a compiled program or library. A guest has no compiler, but both."""
    if IS_GUEST:
        return f"/bin/{source.stem}"
    path = f"{folder}/{source.stem}"
    subprocess.run(["gcc", "-std=gnu99", *flags, "-o", path, source], check=True)
    return path


def compare_dumps(folder):
    """Compares ss with sockdump, for each list of options. Returns the number of differences."""
    program, capture = compiled(TOP / "examples/sockdump.c", folder), f"{folder}/dump"
    wrong = 0
    for option in OF_DUMPS:
        with open(capture, "wb") as output:
            subprocess.run([program], stdout=output, check=True)
        wrong += compare_dump(option, capture)
    return wrong


def compare_selections(folder):
    """Compares which sockets both programs list with options that select sockets, and prints the
    differences. Returns their number."""
    capture, wrong = f"{folder}/capture-an", 0
    everything = listed(capture)[0]
    port = next(key[0].rpartition(":")[2] for key, them in everything.items()
        if them[0]["netid"] == "tcp" and them[0]["state"] == "LISTEN")
    for theirs, ours in SELECTIONS:
        theirs, ours = theirs.replace("PORT", port), ours.replace("PORT", port)
        ss = ["ss", "-OH", *theirs.split()]
        lines = printed(ss).splitlines()
        expected = sorted(str(shown(it)[0]) for it in lines if not it.startswith("nl "))
        found = sorted(str(key) for key, them in listed(capture, ours.split())[0].items()
            for it in them if it["netid"] != "nl")
        lacking = [it for it in expected if it not in found]
        more = [it for it in found if it not in expected]
        differing = [f"lacks {it}" for it in lacking] + [f"has {it}" for it in more]
        print(f"{ours}: {len(found)} sockets, ss lists {len(expected)}", *differing, sep="\n  ")
        wrong += len(lacking) + len(more)
    return wrong


def main():
    if not LISTER.exists():
        sys.exit("compare_ss.py: sslist is not built; run ./sslist </dev/null")
    if os.geteuid() == 0 and not IS_GUEST and ctypes.CDLL(None).unshare(0x40000000) == 0:
        subprocess.run(["ip", "link", "set", "lo", "up"], check=True)
    with tempfile.TemporaryDirectory() as folder:
        recorder = compiled(Path(__file__).with_name("record.c"), folder, "-shared", "-fPIC")
        kept = [] if IS_GUEST else make_sockets(folder)
        options = OPTIONS_OF_GUESTS if IS_GUEST else sys.argv[1:]
        wrong = sum(compare(option, folder, recorder) for option in options or OPTIONS)
        if IS_GUEST or not options:
            wrong += compare_dumps(folder)
        if not options:
            wrong += compare_selections(folder)
        del kept
    return 1 if wrong else 0


if __name__ == "__main__":
    sys.exit(main())
