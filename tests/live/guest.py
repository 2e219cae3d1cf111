#!/usr/bin/python3
"""The first process of a guest that boot_kernels.py boots. It opens sockets (rare_sockets.py), records
what sockdump requests and receives, sends the requests below and records the answers, and has
compare_ss.py compare sslist with the guest's ss. What it writes to /out is left on /dev/vda, as an
archive of tar.
"""

import os
import socket
import struct
import subprocess
import sys
import tarfile
import time
import traceback

HERE = os.path.dirname(os.path.realpath(__file__))
sys.path.insert(0, HERE)
import rare_sockets

MOUNTS = (("proc", "/proc"), ("sysfs", "/sys"), ("devtmpfs", "/dev"), ("tmpfs", "/run"),
          ("cgroup2", "/sys/fs/cgroup"))
MODULES = """virtio_pci virtio_mmio virtio_blk dummy inet_diag tcp_diag udp_diag raw_diag unix_diag
netlink_diag af_packet_diag vsock vsock_diag vsock_loopback xsk_diag mptcp_diag sctp sctp_diag dccp
dccp_ipv4 dccp_diag tls tcp_bbr tcp_dctcp tcp_vegas tcp_illinois smc smc_diag tipc""".split()
NETWORK = """ip link set lo up
ip addr add 10.9.9.1/24 dev dummy0
ip addr add fd00:9::1/64 dev dummy0
ip link set dummy0 up
ip neigh add 10.9.9.9 lladdr 02:00:00:00:00:09 dev dummy0
ip neigh add fd00:9::9 lladdr 02:00:00:00:00:09 dev dummy0""".splitlines()
SETTINGS = {"/proc/sys/net/ipv4/ping_group_range": "0 2147483647",
            "/sys/fs/cgroup/group/cgroup.procs": "0"}
# Of a request: flags of the netlink header, its type, and bits for all states.
REQUEST, DUMP, ACK, BY_FAMILY, DESTROY, ALL = 1, 0x301, 5, 20, 21, 0xFFFFFFFF
ANY_COOKIE = b"\xff" * 8
NETLINK_EXT_ACK = 11


def inet(protocol=6, family=2, states=ALL, extensions=255, end=bytes(48), attributes=b""):
    """Returns a request for internet sockets."""
    return struct.pack("<BBBxI", family, protocol, extensions, states) + end + attributes


def unix(states=ALL, show=0x7F, inode=0, cookie=bytes(8)):
    """Returns a request for UNIX sockets."""
    return struct.pack("<BBxxIII", 1, 0, states, inode, show) + cookie


def netlink(protocol=255, show=7):
    return struct.pack("<BBxxIIII", 16, protocol, 0, show, 0, 0)


def attribute(kind, value):
    return struct.pack("<HH", 4 + len(value), kind) + value + bytes(-len(value) % 4)


def step(code, yes, no, value=b""):
    """Returns an operation of a filter."""
    return struct.pack("<BBH", code, yes, no) + value


def filtered(program):
    return inet(extensions=0, attributes=attribute(1, program))


# The source port is at least 0: every socket. INET_DIAG_BC_S_GE is 2, NOP is 0.
EVERY = step(2, 8, 12, bytes(4))
# A request, by its name.
DUMPS = {
    "unix": unix(),
    **{f"unix, states {bits:x}": unix(bits) for bits in (0, 2, 4, 0x80, 0x402)},
    **{f"unix, show {bits:x}": unix(show=bits) for bits in (0, 0xFF, ALL)},
    **{f"family {family}, protocol {it}": inet(it, family) for family in (2, 10)
       for it in (6, 17, 136, 132, 33, 255, 1, 47, 58, 0, 143, 200)},
    **{f"tcp, states {bits:x}": inet(states=bits)
       for bits in (0, 8, 0x40, 0x80, 0xFFF, 0x1000, 0x2000)},
    "tcp, family 0": inet(family=0),
    **{f"netlink, protocol {it}": netlink(it) for it in (0, 4, 15, 16, 200, 255)},
    "netlink, show ff": netlink(show=0xFF),
    "packet": struct.pack("<BBxxIIII", 17, 0, 0, 0x3F, 0, 0),
    "packet, protocol 3": struct.pack("<BBxxIIII", 17, 3, 0, 0x3F, 0, 0),
    "vsock": struct.pack("<BBxxIIIII", 40, 0, ALL, 0, 0, 0, 0),
    "xdp": struct.pack("<BBxxIIII", 44, 0, 0, 0xFF, 0, 0),
    **{f"family {it}": struct.pack("<BBxxI56x", it, 0, ALL) for it in (30, 43, 45, 200)},
    "no byte": b"", "one byte": b"\1", "unix, 4 bytes": unix()[:4], "inet, 55 bytes": inet()[:55],
    "mptcp": inet(0, extensions=2, attributes=attribute(3, struct.pack("<I", 262))),
    "mptcp, IPv6": inet(0, 10, attributes=attribute(3, struct.pack("<I", 262))),
    "mptcp, protocol 6": inet(6, extensions=2, attributes=attribute(3, struct.pack("<I", 262))),
    "mptcp, a filter": inet(0, attributes=attribute(3, struct.pack("<I", 262))
                            + attribute(1, EVERY)),
    "kind 77": inet(extensions=2, attributes=attribute(77, bytes(4))),
    "kind 77, protocol 0": inet(0, extensions=2, attributes=attribute(77, bytes(4))),
    "storages": inet(extensions=2, attributes=attribute(2, b"")),
    "an attribute past the end": inet(attributes=struct.pack("<HHI", 100, 1, 0)),
    "a filter": filtered(EVERY), "two filters": filtered(EVERY) + attribute(1, EVERY),
    **{f"a filter of {it} bytes": filtered(bytes(it)) for it in (0, 3)},
    **{f"operation {it}": filtered(step(it, length, length + 4, bytes(length - 4)))
       for it in range(17) for length in (4, 8, 12)},
    **{f"a filter with yes {yes}, no {no}": filtered(step(2, yes, no, bytes(4)))
       for yes, no in ((4, 12), (8, 6), (8, 16), (12, 12), (0, 12), (8, 0))},
    "a jump into an operation": filtered(step(2, 8, 12, step(0, 4, 4))),
    **{f"{it} operations": filtered(step(0, 4, 4) * it) for it in (1000, 16350)},
}
OLD = struct.pack("<BBBx48xII", 2, 0, 0, ALL, 0)
# Dumps of other types: type, request.
TYPES = {"type 18": (18, OLD), "type 19": (19, OLD), "type 22": (22, unix())}


class Recorder:
    """Sends requests, and writes what it sends and receives to a capture, and a line for each
    request."""

    def __init__(self):
        self.capture, self.sequence = open("/out/requests.pcap", "wb"), 1000
        self.capture.write(struct.pack("<IHHIIII", 0xA1B2C3D4, 2, 4, 0, 0, 1 << 18, 253))

    def record(self, data):
        head = bytes.fromhex("00040338") + bytes(11) + b"\4"
        now = time.time_ns() // 1000
        length = len(head) + len(data)
        self.capture.write(struct.pack("<IIII", *divmod(now, 10**6), length, length) + head + data)

    def send(self, name, payload, flags=DUMP, kind=BY_FAMILY, extended=False, repeat=False):
        """Sends a request, and records the answer. Long answers that repeat others are left out."""
        self.sequence += 1
        sent = struct.pack("<IHHII", 16 + len(payload), kind, flags, self.sequence, 0) + payload
        with socket.socket(socket.AF_NETLINK, socket.SOCK_RAW, 4) as kernel:
            kernel.settimeout(3)
            if extended:
                kernel.setsockopt(rare_sockets.SOL_NETLINK, NETLINK_EXT_ACK, 1)
            kernel.connect((0, 0))
            kernel.send(sent)
            if repeat:
                kernel.send(sent)
            datagrams = [sent, *answer(kernel, flags & DUMP == DUMP)]
        if sum(map(len, datagrams)) < 4000 or not name.startswith(("tcp, ", "a ", "op", "1")):
            for it in datagrams:
                self.record(it)
        print(f"{name}: {summary(datagrams[1:])}", file=LINES, flush=True)


def answer(kernel, is_dump):
    """Yields the datagrams of an answer."""
    while True:
        try:
            data = kernel.recv(1 << 17)
        except socket.timeout:
            return
        yield data
        if not is_dump or any(it[0] in (2, 3) for it in messages(data)):
            return


def messages(data):
    """Yields type, flags and payload of each message."""
    while len(data) >= 16:
        length, kind, flags, _, _ = struct.unpack_from("<IHHII", data)
        yield kind, flags, data[16:length]
        data = data[length + 3 & ~3 :]


def summary(datagrams):
    """Returns a line about an answer: replies, their states, how it ends, and its datagrams."""
    replies, states, ends = 0, set(), []
    for kind, flags, payload in (it for data in datagrams for it in messages(data)):
        if kind in (2, 3):
            number = int.from_bytes(payload[:4], "little", signed=True)
            alone = kind == 3 and replies and len(datagrams[-1]) < 40
            ends.append(f"{'error' if kind == 2 else 'done'} {number}, flags {flags:x},"
                        f" {len(payload)} bytes{' in a datagram of its own' if alone else ''}")
            continue
        replies += 1
        states.add(payload[2 if payload[0] == 1 else 1])
        if flags & 0x10:
            ends.append("interrupted")
    largest = max(map(len, datagrams), default=0)
    return (f"{replies} replies, states {sorted(states)}, {'; '.join(ends) or 'no end'},"
            f" {len(datagrams)} datagrams of at most {largest} bytes")


def single(recorder):
    """Requests single sockets, by any, the right and a wrong cookie, and closes them."""
    listener = rare_sockets.bound(rare_sockets.opened(socket.AF_UNIX), b"\0single", 1)
    inode = os.fstat(listener.fileno()).st_ino
    cookie = listener.getsockopt(1, 57, 8)
    wrong = bytes([cookie[0] ^ 255]) + cookie[1:]
    for name, it in (("any", ANY_COOKIE), ("no", bytes(8)), ("its", cookie), ("a wrong", wrong)):
        recorder.send(f"one UNIX socket, {name} cookie", unix(inode=inode, cookie=it), REQUEST)
    recorder.send("one UNIX socket, no such inode", unix(inode=999999, cookie=ANY_COOKIE), REQUEST)
    recorder.send("one UNIX socket, acknowledged", unix(inode=inode, cookie=cookie), ACK)
    tcp = rare_sockets.bound(rare_sockets.opened(socket.AF_INET), ("127.0.0.1", 4900), 1)
    cookie = tcp.getsockopt(1, 57, 8)
    wrong = bytes([cookie[0] ^ 255]) + cookie[1:]
    place = struct.pack(">HH", 4900, 0) + socket.inet_aton("127.0.0.1") + bytes(32)
    for name, it in (("any", ANY_COOKIE), ("no", bytes(8)), ("its", cookie), ("a wrong", wrong)):
        recorder.send(f"one TCP socket, {name} cookie", inet(end=place + it), REQUEST)
    for family, size in ((44, 20), (40, 24), (17, 20), (16, 20)):
        recorder.send(f"one socket of family {family}", bytes([family]) + bytes(size - 1), REQUEST)
    for name, it in (("a filter", filtered(step(2, 4, 12, bytes(4)))), ("4 bytes", unix()[:4]),
                     ("protocol 200", inet(200)), ("inode 1", unix(inode=1))):
        flags = REQUEST if name == "inode 1" else DUMP
        recorder.send(f"{name}, extended", it, flags, extended=True)
    recorder.send("close a TCP socket", inet(end=place + ANY_COOKIE), ACK, DESTROY)
    recorder.send("close a UNIX socket", unix(inode=inode, cookie=ANY_COOKIE), ACK, DESTROY)
    listener.close()
    recorder.send("one UNIX socket, closed", unix(inode=inode, cookie=ANY_COOKIE), REQUEST)
    recorder.send("two dumps on one socket", unix(), repeat=True)


def events(recorder):
    """Records the messages about closed sockets."""
    with socket.socket(socket.AF_NETLINK, socket.SOCK_RAW, 4) as kernel:
        kernel.settimeout(1)
        # The kernel sends no report to port id 0.
        kernel.bind((0, 0))
        for group in range(1, 5):
            kernel.setsockopt(rare_sockets.SOL_NETLINK, rare_sockets.NETLINK_ADD_MEMBERSHIP, group)
        for family, kind, protocol in ((2, 1, 0), (2, 2, 0), (10, 1, 0), (2, 3, 1)):
            made = socket.socket(family, kind, protocol)
            made.bind((rare_sockets.LOCAL[family], 0 if kind == 3 else 4911))
            made.close()
        count = 0
        try:
            while True:
                recorder.record(kernel.recv(1 << 16))
                count += 1
        except socket.timeout:
            print(f"closed sockets: {count} messages", file=LINES)


def delayed_acknowledgement(recorder):
    """Requests TCP sockets while an acknowledgement is delayed."""
    client, accepted = rare_sockets.pair()
    client.settimeout(1)
    accepted.settimeout(1)
    for _ in range(40):
        for one, other in ((client, accepted), (accepted, client)):
            one.send(bytes(50))
            time.sleep(0.002)
            other.recv(50)
    for _ in range(4):
        accepted.setsockopt(6, 12, 0)
        client.send(bytes(50))
        accepted.recv(50)
        recorder.send("delayed acknowledgement", inet(states=2, extensions=2))


def busybox(*words):
    subprocess.run(["busybox", *words], check=True)


def prepare():
    """Mounts file systems, loads modules, and configures the network."""
    os.environ["PATH"] = "/bin:/sbin:/usr/bin:/usr/sbin"
    for kind, path in MOUNTS:
        busybox("mount", "-t", kind, "none", path)
    os.mkdir("/sys/fs/cgroup/group")
    subprocess.run(["depmod"])
    for name in MODULES:
        subprocess.run(["modprobe", name], stderr=subprocess.DEVNULL)
    for line in NETWORK:
        subprocess.run(line.split())
    for path, value in SETTINGS.items():
        rare_sockets.tried(lambda: open(path, "w").write(value))


def main():
    prepare()
    rare_sockets.open_all()
    with open("/out/all.pcap", "wb") as capture:
        subprocess.run(["/bin/sockdump"], stdout=capture)
    with open("/out/list_sockets.txt", "w") as output:
        status = subprocess.run(["/bin/list_sockets"], stdout=output, stderr=output).returncode
        print(f"status {status}", file=output)
    recorder = Recorder()
    for name, request in DUMPS.items():
        recorder.send(name, request)
    for name, (kind, request) in TYPES.items():
        recorder.send(name, request, DUMP, kind)
    for function in (single, events, delayed_acknowledgement):
        rare_sockets.tried(function, recorder)
    recorder.capture.close()
    with open("/out/compared.txt", "w") as output:
        words = [sys.executable, f"{HERE}/compare_ss.py", "--guest"]
        subprocess.run(words, stdout=output, stderr=output)


if __name__ == "__main__":
    os.dup2(os.open("/dev/console", os.O_WRONLY), 2)
    try:
        os.makedirs("/out", exist_ok=True)
        LINES = open("/out/requests.txt", "w")
        os.dup2(os.open("/out/log", os.O_WRONLY | os.O_CREAT), 1)
        main()
    except Exception:
        traceback.print_exc(file=LINES)
    finally:
        LINES.close()
        with open("/dev/vda", "wb") as disk, tarfile.open(fileobj=disk, mode="w|") as archive:
            archive.add("/out", ".")
            disk.flush()
            os.fsync(disk.fileno())
        busybox("poweroff", "-f")
