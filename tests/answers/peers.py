"""What other programs and libraries read from the replies of the corpus. answers.py calls
`compare`. Each peer is a function that yields, for some replies, their number in the corpus and the
values that it returns, by the names of sslist-json(5). A value that the peer does not have, or that
has another form there, is not compared."""

import ipaddress
import json
import re
import subprocess
import sys
import tempfile
from collections import Counter
from pathlib import Path

import captured

HERE = Path(__file__).resolve().parent
sys.path.append(str(HERE.parents[1] / "bench"))
import tools

# Python of the system, which has the packages of the system.
PYTHON = "/usr/bin/python3"


def flat(value, prefix=""):
    """Yields each number and text of a JSON value, with its path."""
    if isinstance(value, dict):
        for name, inner in value.items():
            yield from flat(inner, f"{prefix}{name}." if isinstance(inner, dict) else prefix + name)
    else:
        yield prefix.removesuffix("."), value


def of_pyroute2(rows):
    """Has pyroute2 parse each reply. Its names have a prefix of the struct."""
    script = """import json, sys
from pyroute2.netlink.diag import MarshalDiag
marshal = MarshalDiag()
for line in sys.stdin:
    try:
        found, = marshal.parse(bytes.fromhex(line))
        attributes = [(it[0], it[1]) for it in found.get('attrs', ())]
        values = [it for it in found.items() if it[0] not in ('attrs', 'header')]
        print(json.dumps([values, attributes], default=str))
    except Exception as error:
        print(json.dumps(repr(error)))
"""
    replies = "".join(captured.reply(bytes.fromhex(it["reply"])).hex() + "\n" for it in rows)
    run = subprocess.run([PYTHON, "-c", script], input=replies, capture_output=True, text=True)
    groups = {"INET_DIAG_MEMINFO": "meminfo", "INET_DIAG_INFO": "info", "UNIX_DIAG_VFS": "vfs",
              "UNIX_DIAG_RQLEN": "rqlen", "INET_DIAG_VEGASINFO": "vegasinfo"}
    singles = {"INET_DIAG_CONG": "cong", "INET_DIAG_SHUTDOWN": "shutdown",
               "UNIX_DIAG_SHUTDOWN": "shutdown", "UNIX_DIAG_PEER": "peer", "UNIX_DIAG_NAME": "name"}
    for at, line in enumerate(run.stdout.splitlines()):
        found = json.loads(line)
        if isinstance(found, str):
            yield at, {"error": found}
            continue
        values = {re.sub(r"^[iu]diag_", "", name): value for name, value in found[0]}
        for name, value in found[1]:
            if name in groups and isinstance(value, dict):
                values |= {f"{groups[name]}.{re.sub('^(tcpi|[iu]diag(_vfs)?)_', '', inner)}": it
                           for inner, it in value.items()}
            elif name in singles:
                values[singles[name]] = value
        if "cookie" in values:
            values["cookie"] = f"{values['cookie']:x}"
        yield at, values


def of_tshark(rows):
    """Has tshark dissect each reply, in one capture."""
    fields = {"family": "family", "type": "type", "inet_sport": "sport", "inet_dport": "dport",
              "inet_src_ip4": "src", "inet_dst_ip4": "dst", "inet_src_ip6": "src",
              "inet_dst_ip6": "dst", "inet_interface": "if", "inet_cookie": "cookie",
              "unix_inode": "ino", "unix_peer_inode": "peer", "unix_name": "name",
              "recv_queue": "rqlen.rqueue", "send_queue": "rqlen.wqueue", "shutdown": "shutdown"}
    with tempfile.NamedTemporaryFile(suffix=".pcap") as file:
        file.write(captured.capture([(None, bytes.fromhex(it["reply"])) for it in rows]))
        file.flush()
        words = ["tshark", "-r", file.name, "-T", "json", "-J", "netlink-sock_diag"]
        run = subprocess.run(words, capture_output=True, text=True, errors="replace", check=True)
    for at, packet in enumerate(json.loads(run.stdout)):
        found = packet["_source"]["layers"].get("netlink-sock_diag", {})
        values = {}
        for name, value in flat(found):
            last = name.rpartition(".")[2].rpartition("netlink-sock_diag.")[2]
            if last in fields and fields[last] not in values:
                values[fields[last]] = value
        yield at, values


def of_libnl(rows):
    """Has libnl-idiag parse each reply, by a program that peer_libnl.c has."""
    with tempfile.TemporaryDirectory() as folder:
        program = f"{folder}/peer_libnl"
        flags = subprocess.run(["pkg-config", "--cflags", "--libs", "libnl-idiag-3.0"],
                               capture_output=True, text=True, check=True).stdout.split()
        subprocess.run(["cc", "-o", program, HERE / "peer_libnl.c", *flags], check=True)
        replies = "".join(captured.reply(bytes.fromhex(it["reply"])).hex() + "\n"
                          for it in rows)
        run = subprocess.run([program], input=replies, capture_output=True, text=True, check=True)
    for at, line in enumerate(run.stdout.splitlines()):
        if rows[at]["json"]["family"] not in captured.INET:
            continue
        values = dict(word.split("=", 1) for word in line.split(" "))
        yield at, {name: int(it) if it.isdigit() and name != "cookie" else it
                   for name, it in values.items()}


def of_crate(rows):
    """Has the Rust crate parse each reply, and serialize it, by the program in peer_crate. A reply
    without a canonical form has to be rejected. The first one of repeated attributes counts."""
    program = tools.build_original(HERE / "peer_crate")
    replies = "".join(it["reply"] + "\n" for it in rows)
    run = subprocess.run([program], input=replies, capture_output=True, text=True, check=True)
    for at, line in enumerate(run.stdout.splitlines()):
        values = {}
        for word in line.split("\t")[1:]:
            name, _, value = word.partition("=")
            values.setdefault(name, value)
        if "error" in values and not rows[at]["canonical"]:
            values = {"canonical": None}
        name = bytes.fromhex(values.pop("name_hex", "")).decode(errors="replace")
        if name and "\ufffd" not in name:
            values["name"] = name
        yield at, values


# Values in attributes, which an invalid one does not have.
NAMES = {"shutdown", "peer", "name", "cong", "vfs.ino", "vfs.dev",
         "meminfo.rmem", "info.rtt", "mark", "tos"}
PEERS = {"pyroute2": of_pyroute2, "tshark": of_tshark, "libnl": of_libnl, "crate": of_crate}


def is_same(one, other):
    """Returns whether two values are equal, of which one may be the text of the other."""
    if one == other or str(one) == str(other):
        return True
    try:
        if isinstance(one, int):
            return one == int(str(other), 0)
        return ipaddress.ip_address(one) == ipaddress.ip_address(other)
    except ValueError:
        return False


def compare(peer, rows):
    """Compares a peer with the corpus, and prints how often each value is equal or not, and how
    often only the peer has one, since the attribute is invalid."""
    rows = [it for it in rows if it["json"]]
    same, differ, more, examples = Counter(), Counter(), Counter(), {}
    for at, values in PEERS[peer](rows):
        ours = {**dict(flat(rows[at]["json"])), "canonical": rows[at]["canonical"]}
        if "name" in values:
            ours["name"] = ours.get("name.path", "@" + str(ours.get("name.abstract", "")))
        for name, value in values.items():
            if name == "error":
                differ["rejected"] += 1
                examples.setdefault("rejected", (rows[at]["reply"], "accepted", value))
            elif name in ours:
                (same if is_same(ours[name], value) else differ)[name] += 1
                if not is_same(ours[name], value):
                    examples.setdefault(name, (rows[at]["reply"], ours[name], value))
            elif name in NAMES:
                more[name] += 1
                examples.setdefault(f"{name} ", (rows[at]["reply"], None, value))
    for name in sorted({*same, *differ, *more}):
        print(f"{name}: {same[name]} equal, {differ[name]} differ, {more[name]} only in {peer}")
        for reply, mine, theirs in (examples[it] for it in (name, f"{name} ") if it in examples):
            print(f"  {mine!r}, {peer}: {theirs!r}, of {reply}")
    return 0
