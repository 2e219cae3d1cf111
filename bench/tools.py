#!/usr/bin/env python3
"""Compares the C library and the programs with other tools, on dumps of this machine's kernel.

    bench/tools.py libmnl      the C library and a program over libmnl parse the same dumps
    bench/tools.py ss          sslist and ss(8) list the sockets of the same dumps
    bench/tools.py original    sockdiag and a program over the Rust crate answer the same lines

Prints a Markdown table. Ratios are of instructions in user mode, which callgrind counts: other
processes do not change them. A time is the least of many runs. The first run opens some thousand
sockets and records their dumps by bench/dumps.py, in the folder out/bench/dumps; pcap files of the
same names there are used instead. What the kit builds is built first if necessary. Needs valgrind
and cc; libmnl-dev and pkg-config; ss; cargo and crates.io, or the folder BENCH_ORIGINAL
(bench/compare.sh).
"""
import os
import re
import resource
import shutil
import subprocess
import sys
from pathlib import Path

import dumps
from table import print_table

TOP = Path(__file__).resolve().parent.parent
sys.path.append(str(TOP / "tests/api"))
import captured
from reply_reader import captured_datagrams

BENCH = TOP / "bench"
MADE = TOP / "out" / "bench"
LIBRARY = TOP / "crates" / "sockdiag_c" / "out" / "libsockdiag_c.a"
RUNS = 30
VALGRIND = "valgrind --version"
# The names in the table of the subjects of libmnl.c; the family is filled in.
PARSERS = {
    "check": "`sockdiag_check_{}_reply`", "strict": "`sockdiag_{}_get_details`",
    "lenient": "`sockdiag_{}_get_lenient_details`", "libmnl": "libmnl",
    "macros": "macros of the kernel's headers",
}


def quietly(*command, **options):
    """Runs a command. Prints its output if it fails."""
    done = subprocess.run(command, stdout=subprocess.PIPE, stderr=subprocess.STDOUT, **options)
    if done.returncode != 0:
        sys.exit(f"{command[0]}: {done.stdout.decode(errors='replace')}")


def run(command, given=os.devnull, **more):
    """Runs a program with a file as its input and further variables. Returns what it writes on
    standard error."""
    with open(given, "rb") as stdin:
        return subprocess.run(command, stdin=stdin, stdout=subprocess.DEVNULL,
                              stderr=subprocess.PIPE, check=True, env=os.environ | more).stderr


def instructions(command, given=os.devnull, function=None, **more):
    """Returns the number of instructions of a program, or of one function and what it calls."""
    valgrind = ["valgrind", "--tool=callgrind", "--callgrind-out-file=/dev/null"]
    toggle = [f"--toggle-collect={function}"] if function else []
    report = run(valgrind + toggle + command, given, LD_BIND_NOW="1", **more)
    return int(re.search(rb"Collected : (\d+)", report)[1])


def cpu_time(command, given=os.devnull, **more):
    """Returns the least CPU time of a program, user and system, in nanoseconds."""
    least = float("inf")
    for _ in range(RUNS):
        before = resource.getrusage(resource.RUSAGE_CHILDREN)
        run(command, given, **more)
        after = resource.getrusage(resource.RUSAGE_CHILDREN)
        spent = after.ru_utime + after.ru_stime - before.ru_utime - before.ru_stime
        least = min(least, spent * 1e9)
    return least


def recorded():
    """Returns the recorded dumps, UNIX and TCP. Records them first if there are none."""
    folder = MADE / "dumps"
    if not folder.exists():
        dumps.main(folder)
    return folder / "unix.pcap", folder / "tcp.pcap"


def datagrams(capture):
    """Returns the datagrams of a capture that are answers of the kernel: without NLM_F_REQUEST."""
    return [it for it in captured_datagrams(capture) if it[6] & 1 == 0]


def replies(capture):
    """Returns the payloads of the replies in a capture."""
    return [payload for _, payload in captured.replies(capture)]


def program(name, given=os.devnull):
    """Returns the path of a program of this repository. Starts it with a valid input, which proves
    and builds it first if necessary."""
    print(f"tools.py: starting {name}, which is proved and built first if it was not",
          file=sys.stderr)
    run([str(TOP / name)], given)
    return str(TOP / "crates" / name / "out" / name)


def sockets(capture):
    """Returns the name of the sockets of a dump in a table."""
    return capture.stem.upper()


def linked(name, *libraries):
    """Returns the path of a C program of bench/, which is built with the C library."""
    if not LIBRARY.exists():
        print("tools.py: proving and building the C library", file=sys.stderr)
        quietly("rt", "lib", cwd=TOP / "crates" / "sockdiag_c")
    built = str(MADE / name)
    quietly("cc", "-O2", f"-I{TOP / 'include'}", "-o", built, str(BENCH / f"{name}.c"),
            str(LIBRARY), *libraries)
    return built


def compare_libmnl():
    built = linked("libmnl", "-lmnl")
    rows = [("dump", "parsed by", "of libmnl's instructions", "instructions per reply",
             "ns per reply")]
    for capture in recorded():
        times = subprocess.run([built, capture], stdout=subprocess.PIPE, check=True).stdout
        measured = [line.split() for line in times.decode().splitlines()]
        counts = {
            name: instructions([built, str(capture), name], function=f"pass_{name}") / int(number)
            for name, number, _ in measured
        }
        family = "unix" if capture.stem == "unix" else "inet"
        for name, _, time in measured:
            ratio = "1" if name == "libmnl" else f"{counts[name] / counts['libmnl']:.2f}"
            rows.append((sockets(capture), PARSERS[name].format(family), ratio,
                         f"{counts[name]:,.0f}", f"{float(time):.0f}"))
    print_table(rows, "cc --version", VALGRIND, "pkg-config --print-provides libmnl")


def compare_ss():
    sslist = program("sslist", recorded()[0])
    replay = str(MADE / "replay.so")
    quietly("cc", "-O2", "-shared", "-fPIC", "-o", replay, str(BENCH / "replay.c"))
    rows = [("sockets", "of the instructions of ss", "instructions per socket, `sslist`",
             "instructions per socket, ss", "µs per socket, `sslist`", "µs per socket, ss")]
    for capture, arguments in zip(recorded(), ("-xanem", "-tanioem")):
        count = len(replies(capture))
        given = {"LD_PRELOAD": replay, "REPLAY": str(capture)}
        other = [it([shutil.which("ss"), arguments], **given) for it in (instructions, cpu_time)]
        for form, name in ([], ""), (["--json"], "`--json`, "):
            own = [it([sslist, *form], capture) for it in (instructions, cpu_time)]
            rows.append((f"{sockets(capture)}, {name}`ss {arguments}`", f"{own[0] / other[0]:.2f}",
                         *(f"{it / count:,.0f}" for it in (own[0], other[0])),
                         *(f"{it / count / 1000:.2f}" for it in (own[1], other[1]))))
    print_table(rows, "cc --version", VALGRIND, "ss -V")


def build_original(sources=BENCH / "original"):
    """Builds a program over the Rust crate in a copy of its folder, and returns its path."""
    place = MADE / sources.name
    shutil.copytree(sources, place, dirs_exist_ok=True)
    options = ["--release", "--target-dir", "target"]
    if "BENCH_ORIGINAL" in os.environ:
        folder = Path(os.environ["BENCH_ORIGINAL"]).resolve()
        patch = "patch.crates-io.netlink-packet"
        options += ["--offline", "--config", f"{patch}-sock-diag.path='{folder / 'sockdiag'}'",
                    "--config", f"{patch}-core.path='{folder / 'core'}'"]
    quietly("cargo", "build", *options, cwd=place)
    return str(place / "target" / "release" / sources.name)


def lines():
    """Yields each input for sockdiag: its name, the number of replies in it, and its lines."""
    for capture, command in zip(recorded(), ("unix", "inet")):
        kinds = [(command, replies(capture))]
        if command == "unix":
            kinds.append(("unixview", replies(capture)))
        kinds.append(("netlink", [dumps.message(it) for it in replies(capture)]))
        for name, found in kinds:
            text = "".join(f"{name} {it.hex()}\n" for it in found)
            kind = f", {sockets(capture)}" if name == "netlink" else ""
            yield f"`{name}`{kind}", len(found), text
        whole = " ".join(it.hex() for it in datagrams(capture))
        yield f"`dump`, {sockets(capture)}, one line", len(replies(capture)), f"dump {whole}\n"


def compare_original():
    own, other = program("sockdiag"), build_original()
    given = MADE / "lines"
    rows = [("lines", "of the other program's instructions", "instructions per reply, `sockdiag`",
             "instructions per reply, other", "µs per reply, `sockdiag`", "µs per reply, other")]
    for name, count, text in lines():
        given.write_text(text)
        counts = [instructions([it], given) / count for it in (own, other)]
        times = [cpu_time([it], given) / count / 1000 for it in (own, other)]
        rows.append((name, f"{counts[0] / counts[1]:.2f}", *(f"{it:,.0f}" for it in counts),
                     *(f"{time:.2f}" for time in times)))
    print_table(rows, "rustc --version", VALGRIND)


COMPARISONS = {"libmnl": compare_libmnl, "ss": compare_ss, "original": compare_original}

if __name__ == "__main__":
    if len(sys.argv) != 2 or sys.argv[1] not in COMPARISONS:
        print(__doc__, file=sys.stderr)
        sys.exit(2)
    MADE.mkdir(parents=True, exist_ok=True)
    COMPARISONS[sys.argv[1]]()
