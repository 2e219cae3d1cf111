#!/usr/bin/env python3
"""compare_listers.py ONE OTHER: runs two builds of sslist over the same captures with the same
options, and compares standard output, standard error and exit status. Prints the first runs that
differ. The exit status is 1 if there is one.

The captures have a UNIX socket for each assigned character, with this name; sockets whose names are
random sequences of the characters that may join in a terminal; and the stored capture with random
changes, 400 times.
"""

import random
import subprocess
import sys
from pathlib import Path

sys.dont_write_bytecode = True
sys.path.append(str(Path(__file__).resolve().parents[1]))
from runs import CAPTURE as STORED
from runs import attribute, packet

CAPTURE = STORED.read_bytes()
FILE_HEADER = CAPTURE[:24]
# Unicode has assigned no other characters, except for private use.
CHARACTERS = [*range(0xD800), *range(0xE000, 0x34000), *range(0xE0000, 0xE0200)]
# Emoji with a modifier, vowels of Kirat Rai, tones of Lisu, and characters that are not shown.
JOINING = [*range(0xA4F8, 0xA500), *range(0x16D60, 0x16D6C), *range(0x1F3F4, 0x1F400), 0x1F466,
           0x26F9, 0x1F1E6, 0x17D8, 0x200D, 0xFE0F, 0x301, 0x627, 0x644, 0x4E00, 0x41]
OPTIONS = """-t -u -M -x -0 -l -a -o -e -m -i -4 -6 -H -O -n --utf8 --requests --json --vsock --xdp
--family=netlink""".split()


def named(name):
    """Returns a packet with a reply about a UNIX socket with this abstract name."""
    return packet(bytes([1, 1, 10, *bytes(13)]) + attribute(0, b"\0" + name))


def names(source):
    """Returns names of up to seven characters, of which a tenth is no valid UTF-8."""
    for _ in range(30_000):
        text = "".join(chr(source.choice(JOINING)) for _ in range(source.randint(1, 7)))
        yield text.encode()[: -1 if source.random() < 0.1 else None]


def changed(source):
    """Returns the stored capture with random changes."""
    capture = bytearray(CAPTURE)
    for _ in range(source.choice((0, 1, 5, 50))):
        capture[source.randrange(len(capture))] = source.randrange(256)
    return bytes(capture[: source.choice((len(capture), source.randrange(len(capture))))])


def runs():
    """Yields the options and the input of each run."""
    source = random.Random(1)
    characters = FILE_HEADER + b"".join(named(chr(it).encode()) for it in CHARACTERS)
    sequences = FILE_HEADER + b"".join(map(named, names(source)))
    for capture in (characters, sequences):
        yield from ((options, capture) for options in (["--utf8", "-O"], ["--json"]))
    for _ in range(400):
        yield source.sample(OPTIONS, source.randrange(4)), changed(source)


def outcome(program, options, capture):
    ended = subprocess.run([program, *options], input=capture, capture_output=True, timeout=300)
    return ended.returncode, ended.stdout.splitlines(), ended.stderr.splitlines()


def main():
    if len(sys.argv) != 3:
        sys.exit(__doc__.splitlines()[0])
    count, wrong = 0, []
    for options, capture in runs():
        count += 1
        one, other = (outcome(program, options, capture) for program in sys.argv[1:])
        if one != other:
            lines = ((a, b) for a, b in zip(one[1] + one[2], other[1] + other[2]) if a != b)
            wrong.append(f"{options}: {one[0]} and {other[0]}: {next(lines, 'fewer lines')}")
    print(*wrong[:20], f"compare_listers: {count} runs, {len(wrong)} differ", sep="\n")
    return 1 if wrong else 0


if __name__ == "__main__":
    sys.exit(main())
