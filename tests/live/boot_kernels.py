#!/usr/bin/env python3
"""boot_kernels.py [--keep] FOLDER [NAME..]: boots kernels of Debian under software emulation, and
compares what sslist and the C library make of their replies. It is not part of the gate: it needs a
network for the packages, half a gigabyte for each system, and one or two minutes for each kernel.

NAME is a kernel of the table KERNELS, and all of them by default. In FOLDER the script keeps
packages, and a folder for each kernel with what its guest wrote (guest.py): captures of a dump of
all sockets (all.pcap) and of some 130 requests with their answers (requests.pcap), a line for each
request (requests.txt), how sslist compares with the ss of this Debian (compared.txt), and what the
example list_sockets prints with the C library (list_sockets.txt). The guest has sockets of all
families, protocols and states (rare_sockets.py). A kernel that has these files is not booted again.

For each kernel the script compares the C library with the independent reader of tests/api over all
replies, and prints what sslist and ss show differently, and the words of sslist about what has no
name. It also prints what a kernel sends and the one before it in the table does not, and the
reverse: states, timers, kinds of attributes and their lengths, words of struct tcp_info that are
not 0, and answers to requests. docs/KERNELS.md has to explain these lines. With --keep the captures
are also stored in tests/api/kernels, where the gate reads them.

The programs are the static sslist for each processor, out/static/sslist of tools/build and
out/arm64/sslist, to which bin/sslist of a release for arm64 has to be copied. SOCKDIAG_LIBRARY may
be another C library for x86-64. Needs apt, dpkg, cpio, a C compiler for each processor, and
qemu-system.
"""

import gzip
import os
import re
import shutil
import subprocess
import sys
import tarfile
from collections import Counter, defaultdict
from pathlib import Path
from typing import NamedTuple

HERE = Path(__file__).resolve().parent
TOP = HERE.parent.parent
sys.path.insert(0, str(HERE.parent / "api"))
import captured
import reply_reader

SYSTEM = ("python3", "iproute2", "kmod", "busybox-static", "libnss-myhostname")


class Kernel(NamedTuple):
    """The newest kernel with this version in a suite of Debian, with the system of a release."""

    version: str
    suite: str
    release: str
    processor: str = "amd64"

    @property
    def name(self):
        return self.version + ("" if self.processor == "amd64" else f"-{self.processor}")


KERNELS = (
    Kernel("5.10", "bullseye", "bullseye"), Kernel("6.1", "bookworm", "bookworm"),
    Kernel("6.12", "trixie", "trixie"), Kernel("6.12", "trixie", "trixie", "arm64"),
    *(Kernel(it, "trixie-backports", "trixie") for it in ("6.16", "6.17", "6.18", "7.2", "7.3")),
)


class Processor(NamedTuple):
    """How programs for a processor are compiled, how its machine is emulated, and its sslist."""

    compiler: str
    emulator: tuple
    console: str
    lister: str


PROCESSORS = {
    "amd64": Processor("cc", ("qemu-system-x86_64", "-cpu", "core2duo"), "ttyS0", "static"),
    "arm64": Processor("aarch64-linux-gnu-gcc",
                       ("qemu-system-aarch64", "-machine", "virt", "-cpu", "max"), "ttyAMA0",
                       "arm64"),
}


def run(*words, **how):
    return subprocess.run(list(map(str, words)), check=True, **how)


class Archive:
    """The packages of a suite for a processor, with a state of apt of their own."""

    def __init__(self, folder, suite, processor):
        self.at = folder / "apt" / f"{suite}-{processor}"
        self.processor = processor
        for name in ("lists/partial", "cache/archives/partial"):
            (self.at / name).mkdir(parents=True, exist_ok=True)
        (self.at / "status").touch()
        suites = {suite, suite.removesuffix("-backports")}
        mirror = os.environ.get("MIRROR", "http://deb.debian.org/debian")
        (self.at / "sources").write_text("".join(
            f"deb [signed-by=/usr/share/keyrings/debian-archive-keyring.gpg] {mirror} {it} main\n"
            for it in sorted(suites)))
        if not (self.at / "updated").exists():
            self.apt("apt-get", "update")
            (self.at / "updated").touch()

    def apt(self, program, *words, **how):
        options = {"APT::Architecture": self.processor, "APT::Architectures": self.processor,
                   "Dir::Etc::sourcelist": self.at / "sources",
                   "Dir::Etc::sourceparts": "/dev/null",
                   "Dir::State": self.at, "Dir::State::lists": self.at / "lists",
                   "Dir::State::status": self.at / "status", "Dir::Cache": self.at / "cache",
                   "Acquire::Languages": "none", "APT::Sandbox::User": "root",
                   "Debug::NoLocking": "1"}
        flags = [word for name, value in options.items() for word in ("-o", f"{name}={value}")]
        return run(program, "-qq", *flags, *words, **how)

    def unpack(self, folder, packages, *options):
        """Unpacks packages, and with the option `install` what they need, in a folder."""
        if (folder / ".unpacked").exists():
            return
        if "install" in options:
            self.apt("apt-get", "install", "--download-only", "--no-install-recommends", "--yes",
                     *packages)
            files = (self.at / "cache/archives").glob("*.deb")
        else:
            fetched = self.at / "fetched" / folder.name
            fetched.mkdir(parents=True, exist_ok=True)
            self.apt("apt-get", "download", *packages, cwd=fetched)
            files = fetched.glob("*.deb")
        shutil.rmtree(folder, ignore_errors=True)
        # The systems of all releases have one folder for programs and one for libraries.
        for name in ("bin", "sbin", "lib", "lib64"):
            (folder / "usr" / name).mkdir(parents=True, exist_ok=True)
            (folder / name).symlink_to(f"usr/{name}")
        for file in sorted(files):
            words = ["dpkg-deb", "--fsys-tarfile", file]
            with subprocess.Popen(words, stdout=subprocess.PIPE) as it:
                run("tar", "-x", "--keep-directory-symlink", "-C", folder, stdin=it.stdout)
        (folder / ".unpacked").touch()

    def newest_kernel(self, version):
        """Returns the newest packages of a kernel. Newer kernels have modules in another one."""
        pattern = rf"^linux-(image|binary|modules)-{re.escape(version)}[.-].*-cloud-"
        pattern += f"{self.processor}$"
        names = self.apt("apt-cache", "search", "--names-only", pattern, capture_output=True,
                         text=True).stdout.splitlines()
        packages = defaultdict(list)
        for name in (line.split()[0] for line in names):
            packages[name.split("-", 2)[2]].append(name)
        order = run("sort", "-V", input="\n".join(packages), capture_output=True,
                    text=True).stdout.split()
        return packages[order[-1]]


def library(processor):
    """Returns the path of the C library for a processor."""
    if processor == "amd64" and "SOCKDIAG_LIBRARY" in os.environ:
        return Path(os.environ["SOCKDIAG_LIBRARY"])
    folder = "out/arm64" if processor == "arm64" else "crates/sockdiag_c/out"
    return TOP / folder / "libsockdiag_c.a"


def build(folder, processor):
    """Builds the programs of the guests, in a folder `bin`, and returns the folder that has it."""
    made, how = folder / "built" / processor, PROCESSORS[processor]
    (made / "bin").mkdir(parents=True, exist_ok=True)
    flags = ("-O1", "-static", "-std=c99", f"-I{TOP}/include")
    run(how.compiler, *flags, "-DWITH_FILTERS", "-o", made / "bin/sockdump",
        TOP / "examples/sockdump.c", library(processor))
    run(how.compiler, *flags, "-o", made / "bin/list_sockets", TOP / "examples/list_sockets.c",
        library(processor))
    run(how.compiler, "-shared", "-fPIC", "-o", made / "bin/record", HERE / "record.c")
    shutil.copy(TOP / "out" / how.lister / "sslist", made / "bin/sslist")
    return made


def copy_modules(kernel, root):
    """Copies the modules that the guest may need from an unpacked kernel to an initial system."""
    modules = next(kernel.glob("usr/lib/modules/*"))
    at = root / "usr/lib/modules" / modules.name
    for part in ("kernel/net", "kernel/crypto", "kernel/arch", "kernel/lib", "kernel/drivers/net",
                 "kernel/drivers/virtio", "kernel/drivers/block", "kernel/drivers/vhost"):
        if (modules / part).exists():
            shutil.copytree(modules / part, at / part)
    for name in ("modules.builtin", "modules.order", "modules.builtin.modinfo"):
        if (modules / name).exists():
            shutil.copy(modules / name, at)


def initial_system(it, system, kernel, made, file):
    """Writes the initial system of a guest: a Debian, the kernel's modules, and the tests."""
    root = file.parent / "root"
    shutil.rmtree(root, ignore_errors=True)
    unused = shutil.ignore_patterns("doc", "man", "locale", "info", "__pycache__", "test",
                                    "zoneinfo", "lintian", "perl*", "idlelib", "lib2to3", "gconv")
    shutil.copytree(system, root, symlinks=True, ignore=unused)
    copy_modules(kernel, root)
    for name in ("proc", "sys", "dev", "run", "tmp", "out", "tests/live"):
        (root / name).mkdir(parents=True, exist_ok=True)
    for source in (made / "bin").iterdir():
        shutil.copy(source, root / "usr/bin")
    for name in ("rare_sockets.py", "compare_ss.py", "guest.py"):
        shutil.copy(HERE / name, root / "tests/live")
    (root / "init").symlink_to("tests/live/guest.py")
    run("sh", "-c", f"find . | cpio -o -H newc --quiet | gzip -1 >{file}", cwd=root)
    shutil.rmtree(root)


def boot(folder, it, made):
    """Boots a kernel, and returns the folder with what its guest wrote."""
    at = folder / it.name
    at.mkdir(exist_ok=True)
    system = folder / f"system-{it.release}-{it.processor}"
    Archive(folder, it.release, it.processor).unpack(system, SYSTEM, "install")
    archive, kernel = Archive(folder, it.suite, it.processor), folder / f"kernel-{it.name}"
    archive.unpack(kernel, archive.newest_kernel(it.version))
    initial_system(it, system, kernel, made, at / "initial.gz")
    how, disk = PROCESSORS[it.processor], at / "disk"
    disk.write_bytes(b"")
    os.truncate(disk, 1 << 24)
    image = next(iter([*kernel.glob("boot/vmlinuz*"), *kernel.glob("usr/lib/modules/*/vmlinuz")]))
    with open(at / "console", "wb") as console:
        # Python needs no random numbers then, which a kernel without rdrand has late.
        words = f"console={how.console} panic=-1 loglevel=3 mitigations=off PYTHONHASHSEED=0"
        run("timeout", "1800", *how.emulator, "-accel", "tcg", "-m", "1024", "-nographic",
            "-monitor", "none", "-serial", "stdio", "-nic", "none", "-no-reboot", "-kernel", image,
            "-initrd", at / "initial.gz", "-drive", f"file={disk},if=virtio,format=raw",
            "-append", words, stdout=console, stdin=subprocess.DEVNULL)
    with tarfile.open(disk, "r|") as written:
        written.extractall(at)
    (at / "initial.gz").unlink()
    disk.unlink()
    return at


# The families of internet sockets, as the first byte of a reply.
INET = (b"\2", b"\x0a")
# The kinds of attributes with a struct, and with nested attributes, of an internet socket.
INFO, ULP_INFO = 2, 19


def observations(protocol, payload):
    """Yields what is to be compared of a reply with those of other kernels."""
    name, _ = reply_reader.named(payload) or (None, payload)
    if not name:
        return
    if payload[:1] in INET:
        name += f" protocol {protocol}"
        yield f"{name} state {payload[1]} timer {payload[2]}"
    elif name == "unix":
        yield f"unix type {payload[1]} state {payload[2]}"
    for kind, value in reply_reader.split(payload, reply_reader.REPLIES[name.split()[0]][0]):
        if kind is None:
            yield f"{name} with a framing error"
            return
        yield f"{name} kind {kind}"
        if len(value) % 4 == 0 and len(value) > 8:
            yield f"{name} kind {kind} of {len(value)} bytes"
        if kind == INFO and payload[:1] in INET:
            words = (it for it in range(0, len(value), 4) if any(value[it : it + 4]))
            yield from (f"{name} kind {kind} state {payload[1]} not 0 at {it}" for it in words)
        if kind == ULP_INFO and payload[:1] in INET:
            for outer, nested in reply_reader.split(value, 0):
                yield from (f"{name} kind {kind} nested {outer} {inner}"
                            for inner, _ in reply_reader.split(nested, 0))


def census(at):
    """Returns what a kernel sends, as lines."""
    lines = {line for it in ("all", "requests")
             for answer in captured.replies(at / f"{it}.pcap") for line in observations(*answer)}
    # How many replies there are depends on the other sockets of the guest.
    for line in (at / "requests.txt").read_text().splitlines():
        lines.add(re.sub(r"[1-9]\d* replies", "replies", re.sub(r", \d+ datagrams.*", "", line)))
    return lines


def compare_reader(at, program):
    """Compares the C library with the independent reader, and prints the first difference."""
    rows = {f"{name} {payload.hex()}\n" for it in ("all", "requests")
            for _, reply in captured.replies(at / f"{it}.pcap")
            for name, payload in [reply_reader.named(reply) or ("", b"")] if name}
    replies = "".join(sorted(rows))
    found = run(program, input=replies, capture_output=True, text=True).stdout.splitlines()
    expected = [reply_reader.answer(name, bytes.fromhex(digits))
                for name, digits in map(str.split, replies.splitlines())]
    wrong = [f"{row}\n  {one}\n  {other}" for row, one, other
             in zip(replies.splitlines(), expected, found) if one != other]
    print(f"{at.name}: {len(expected)} different replies, {len(wrong)} of which the C library reads"
          " in another way than the reader", *wrong[:3], sep="\n  ")
    return len(wrong) + abs(len(expected) - len(found))


def is_listed_in_guest(at):
    """Returns whether the example in C ended without an error in the guest, and listed the inodes
    of the UNIX, TCP, UDP and MPTCP sockets in the capture of all sockets."""
    text = (at / "list_sockets.txt").read_text(errors="replace")
    inodes = set(re.findall(r" inode (\d+)", text))
    lacking = set()
    for protocol, payload in captured.replies(at / "all.pcap"):
        if payload[0] == 1 or protocol in (6, 17, captured.MPTCP):
            at_inode = 4 if payload[0] == 1 else 68
            lacking |= {str(int.from_bytes(payload[at_inode : at_inode + 4], "little"))} - inodes
    ends = text.rstrip().endswith("status 0")
    print(f"{at.name}: list_sockets: {len(inodes)} inodes, {len(lacking)} are lacking,"
          f" {text.splitlines()[-1]}")
    return ends and not lacking


def print_listed(at):
    """Prints what sslist and ss show differently. Returns whether the comparison ended."""
    lines = (at / "compared.txt").read_text().splitlines()
    equal = (" 0 differ, 0 sockets missing", " 0 differ, 0 are not listed by ss", "  sslist: ")
    for line in lines:
        if not any(it in line for it in equal):
            print(f"  {line}")
    values = sum(int(it) for it in re.findall(r"(\d+) values compared", "\n".join(lines)))
    print(f"{at.name}: sslist and ss: {values} values compared")
    return bool(lines) and lines[-1].startswith("sockdump ")


def print_unknown(at):
    """Prints the words of sslist about what has no name, and how many there are of each."""
    words = Counter()
    for it in ("all", "requests"):
        listed = subprocess.run([TOP / "out/static/sslist", at / f"{it}.pcap"], check=False,
                                capture_output=True, text=True).stdout
        words.update(re.sub(r"\d+ms", "..", word) for word in listed.split()
                     if "unknown" in word.lower())
    for word, count in sorted(words.items()):
        print(f"{at.name}: sslist prints {word}: {count} times")


def keep(at):
    """Stores both captures of a kernel in one file."""
    first, second = ((at / f"{it}.pcap").read_bytes() for it in ("all", "requests"))
    file = TOP / f"tests/api/kernels/linux-{at.name}.pcap.gz"
    file.write_bytes(gzip.compress(first + second[24:], 9, mtime=0))


def print_changes(before, now, names):
    """Prints what a kernel sends and another one does not, and the reverse."""
    print(f"{names[1]}, compared with {names[0]}:")
    for line in sorted(before - now):
        print(f"  - {line}")
    for line in sorted(now - before):
        print(f"  + {line}")


def main():
    arguments = [it for it in sys.argv[1:] if it != "--keep"]
    if not arguments:
        sys.exit(__doc__.splitlines()[0])
    folder, names = Path(arguments[0]).resolve(), arguments[1:]
    wanted = [it for it in KERNELS if not names or it.name in names]
    for it in wanted:
        if not (folder / it.name / "compared.txt").exists():
            boot(folder, it, build(folder, it.processor))
    program = folder / "print_replies"
    run("cc", "-std=c99", "-O1", f"-I{TOP}/include", "-o", program,
        TOP / "tests/api/print_replies.c", library("amd64"))
    wrong, before = 0, None
    for it in wanted:
        at = folder / it.name
        wrong += compare_reader(at, program)
        wrong += (not print_listed(at)) + (not is_listed_in_guest(at))
        print_unknown(at)
        if "--keep" in sys.argv:
            keep(folder / it.name)
        now = census(folder / it.name)
        if before:
            print_changes(before[0], now, (before[1], it.name))
        before = now, it.name
    return 1 if wrong else 0


if __name__ == "__main__":
    sys.exit(main())
