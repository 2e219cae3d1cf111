#!/usr/bin/env python3
"""answers.py write|check SOCKDIAG SSLIST: writes what these programs make of a corpus of replies to
replies.jsonl.gz, or compares it with that file. README.md has the format. The gate checks.

answers.py PEER: compares another program or library with the corpus, and prints how often each
value differs, with an example. PEER is `pyroute2`, `tshark` or `libnl`, which has to be installed,
or `crate`, the Rust crate netlink-packet-sock-diag 0.5.0, which needs cargo and crates.io, or the
folder BENCH_ORIGINAL (bench/compare.sh). These comparisons are not part of the gate.

The corpus has the replies among the stored lines of the program sockdiag, those of the table "Odd
replies" of docs/C.md, and of the replies in tests/api/kernels, which real kernels sent, one for
each family, protocol, state, and set of attributes with their lengths.
"""

import gzip
import json
import subprocess
import sys
from pathlib import Path

HERE = Path(__file__).resolve().parent
TOP = HERE.parent.parent
CORPUS = HERE / "replies.jsonl.gz"
sys.dont_write_bytecode = True
sys.path[:0] = [str(TOP / "tests/api"), str(HERE)]
import captured
import reply_reader


def stored_lines():
    """Yields the replies of the stored lines of the program sockdiag."""
    for line in (TOP / "crates/sockdiag/stdin").read_text("latin-1").splitlines():
        name, _, digits = line.partition(" ")
        try:
            payload = bytes.fromhex(digits)
        except ValueError:
            continue
        if name in ("unix", "inet", "message") and 4 <= len(payload) <= 4096:
            yield None, payload


def kernel_replies():
    """Yields one of the replies of kernels for each kind."""
    found = set()
    for file in sorted((TOP / "tests/api/kernels").glob("*.pcap.gz")):
        for protocol, payload in captured.replies(file):
            family = reply_reader.named(payload)
            if not family:
                continue
            attributes = reply_reader.split(payload, reply_reader.REPLIES[family[0]][0])
            key = (payload[:3], protocol, *((kind, len(value)) for kind, value in attributes))
            if key not in found:
                found.add(key)
                yield protocol, payload


def corpus():
    """Returns the replies, each once, with the protocols of their requests."""
    odd = ((None, payload) for _, payload in reply_reader.odd_replies())
    return list(dict.fromkeys([*stored_lines(), *odd, *kernel_replies()]))


def answers(sockdiag, sslist, replies):
    """Yields the row of each reply."""
    lines = "".join(f"message {payload.hex()}\n" for _, payload in replies)
    found = subprocess.run([sockdiag], input=lines, capture_output=True, text=True, check=True)
    for (protocol, payload), answer in zip(replies, found.stdout.splitlines(), strict=True):
        listed = subprocess.run([sslist, "--json"], input=captured.capture([(protocol, payload)]),
                                capture_output=True)
        text = listed.stdout.decode().splitlines()
        verdict, _, value = answer.partition(" ")
        yield {"reply": payload.hex(), "protocol": protocol,
               "error": int(value) if verdict == "refused" else None,
               "canonical": value if verdict == "ok" else None,
               "json": json.loads(text[0]) if text else None}


def stored():
    """Returns the rows of the corpus."""
    with gzip.open(CORPUS, "rt") as rows:
        return [json.loads(row) for row in rows]


def check(rows):
    """Compares the rows with the stored ones."""
    wrong = [(one, other) for one, other in zip(rows, stored(), strict=True) if one != other]
    for one, other in wrong[:5]:
        print(f"answers: {one}\n  the corpus has {other}")
    print(f"answers: {len(rows)} replies, {len(wrong)} differ")
    return 1 if wrong else 0


def main():
    command, *words = sys.argv[1:] or ["help"]
    if command in ("write", "check") and len(words) == 2:
        rows = list(answers(*words, corpus()))
        if command == "check":
            return check(rows)
        text = "".join(json.dumps(it, separators=(",", ":")) + "\n" for it in rows)
        CORPUS.write_bytes(gzip.compress(text.encode(), 9, mtime=0))
        return 0
    if command in ("pyroute2", "tshark", "libnl", "crate") and not words:
        import peers
        return peers.compare(command, stored())
    sys.exit(__doc__)


if __name__ == "__main__":
    sys.exit(main())
