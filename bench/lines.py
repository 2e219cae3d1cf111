#!/usr/bin/env python3
"""Measures programs that answer lines: lines.py PROGRAM STORED [OTHER [FOLDER]], called by
lines.sh."""
import os
import resource
import subprocess
import sys
import tempfile
import time

ROUNDS = 5
OUTPUTS = ("null", "file", "pipe")


def requests(count):
    line = b"unixreq 010000000204000034120000%02x000000ffffffffffffffff\n"
    return b"".join(line % (i % 64) for i in range(count))


def inputs(stored):
    """Yields the name and the bytes of each input: many lines, or one line of 100 million
    characters."""
    lines = [line + b"\n" for line in open(stored, "rb").read().split(b"\n") if line]
    yield "unixreq, 10^4", requests(10**4)
    yield "unixreq, 10^5", requests(10**5)
    yield "unixreq, 10^6", requests(10**6)
    for name in (b"unix", b"inet", b"netlink", b"unixview", b"dump"):
        own = b"".join(line for line in lines if line.startswith(name + b" "))
        yield name.decode() + ", stored lines", own * (20_000_000 // len(own))
    yield "short bad lines", b"a\n" * 10**6
    yield "one unixreq line", b"unixreq " + b"01" * 50_000_000 + b"\n"
    length = 50_000_000
    message = length.to_bytes(4, "little") + b"\4\0" + bytes(10) + b"\x5a" * (length - 16)
    yield "one netlink line", b"netlink " + message.hex().encode() + b"\n"
    yield "one bad line", b"x" * 100_000_000 + b"\n"


def seconds(program, given, output, work):
    """Returns the CPU time of one run, user and system, in seconds."""
    before = resource.getrusage(resource.RUSAGE_CHILDREN)
    with open(given, "rb") as stdin, open(os.path.join(work, "out"), "wb") as file:
        target = {"null": subprocess.DEVNULL, "file": file, "pipe": subprocess.PIPE}[output]
        subprocess.run([program], stdin=stdin, stdout=target, check=True)
    after = resource.getrusage(resource.RUSAGE_CHILDREN)
    return after.ru_utime + after.ru_stime - before.ru_utime - before.ru_stime


def peak(program, given):
    """Returns the peak memory in KiB (`VmHWM`), which is read after all input was written and
    before it ends."""
    run = subprocess.Popen([program], stdin=subprocess.PIPE, stdout=subprocess.DEVNULL)
    with open(given, "rb") as text:
        while piece := text.read(1 << 20):
            run.stdin.write(piece)
    run.stdin.flush()
    time.sleep(0.5)
    with open(f"/proc/{run.pid}/status") as status:
        kib = next(int(line.split()[1]) for line in status if line.startswith("VmHWM"))
    run.stdin.close()
    run.wait()
    return kib


def measure(programs, text, work):
    """Returns the least CPU time of each program by output, and the peak memory of the first."""
    given = os.path.join(work, "in")
    with open(given, "wb") as file:
        file.write(text)
    times = {(program, output): [] for program in programs for output in OUTPUTS}
    for _ in range(ROUNDS):
        for program, output in times:
            times[program, output].append(seconds(program, given, output, work))
    return {key: min(values) for key, values in times.items()}, peak(programs[0], given)


def main(program, stored, other=None, folder=None):
    cases = list(inputs(stored))
    for name in sorted(os.listdir(folder)) if folder else []:
        with open(os.path.join(folder, name), "rb") as file:
            cases.append((name, file.read()))
    heading = f"{'input':24} {'lines':>8} {'ns/line':>10} {'peak KiB':>9}  of longest"
    print(heading + ("   other's time: " + " ".join(OUTPUTS) if other else ""))
    with tempfile.TemporaryDirectory() as work:
        for name, text in cases:
            least, kib = measure([program, other] if other else [program], text, work)
            count, longest = text.count(b"\n"), max(len(line) for line in text.split(b"\n"))
            of_longest = f"{kib * 1024 / longest:9.2f}" if longest > 10**6 else f"{'-':>9}"
            each = least[program, "null"] / count * 1e9
            line = f"{name:24} {count:8} {each:10.0f} {kib:9}  {of_longest}"
            if other:
                ratios = (least[program, it] / max(least[other, it], 1e-9) for it in OUTPUTS)
                line += "   " + " ".join(f"{ratio:.2f}" for ratio in ratios)
            print(line, flush=True)


if __name__ == "__main__":
    if not 3 <= len(sys.argv) <= 5:
        print("usage: lines.py PROGRAM STORED [OTHER [FOLDER]]", file=sys.stderr)
        sys.exit(2)
    main(*sys.argv[1:])
