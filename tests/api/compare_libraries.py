#!/usr/bin/env python3
"""compare_libraries.py LIBRARY OTHER [ROUNDS [SEED]]: calls each function of two shared C libraries
of include/sockdiag.h with the same inputs, and compares what they return and write.

A round is one call of each function (20,000 rounds by default). The inputs are the stored replies,
replies that reply_reader.py makes, parts of these, and texts of random words of filters, all of
them changed at random; structs and buffers have random bytes before. A second buffer is empty.
compare_libraries.c makes the calls. This script writes what it includes: a call of each function
with the types of the header, and which bytes of each struct are padding, which C does not define.

Prints the functions whose calls differ. The exit status is 1 if there are any, or if all calls of a
function with a result that varies returned 0.
"""

import os
import random
import re
import subprocess
import sys
import tempfile
from pathlib import Path

TOP = Path(__file__).resolve().parent.parent.parent
sys.dont_write_bytecode = True
sys.path.insert(0, str(TOP / "tools"))
import reply_reader
from declarations import Library, passed

IN_C = {"u16": "uint16_t", "u32": "uint32_t", "usize": "size_t"}
# The lengths of the headers that precede the attributes.
HEADERS = {"unix": 16, "inet": 72, "netlink": 28, "packet": 16, "vsock": 32, "xdp": 16}
# The random number of compare_libraries.c that a parameter gets, by its name.
NUMBERS = {"message_type": "message_type", "flags": "flags", "what": "what"}
MADE = 20_000
# Words of filters.
WORDS = """state exclude listening established all sport dport src dst dev fwmark cgroup autobound =
    != >= <= ! not and or ( ) :443 22 0x1/0x3 10.0.0.0/8:53 [::1]:0 [fe80::]/10 *:7""".split()


def mask(library, kind):
    """Returns a character for each byte of a type: `p` is padding, `t` a pointer to a text, which
    is only compared if its kind, 8 bytes before, is not 0."""
    kind = kind.removesuffix("<'a>")
    array = re.fullmatch(r"\[(\w+); (\d+)\]", kind)
    if array:
        return mask(library, array[1]) * int(array[2])
    size, _ = library.size_and_align(kind)
    if kind not in library.structs:
        return ("t" if kind == "&u8" else "d") * size
    offsets, found = library.layout(library.structs[kind].fields), ["p"] * size
    for field in library.structs[kind].fields:
        part = mask(library, field.kind)
        found[offsets[field.name] : offsets[field.name] + len(part)] = part
    return "".join(found)


def parameter(it, counts):
    """Returns the C type and the C value of a parameter, and the type of its struct or None. Counts
    the inputs and the structs."""
    if it.kind == "&u8":
        counts["inputs"] += 1
        return "const uint8_t *", f"input[{counts['inputs'] - 1}]", None
    if it.kind == "&mut u8":
        counts["buffers"] += 1
        return "uint8_t *", "buffer" if counts["buffers"] == 1 else "NULL", None
    if it.kind.startswith("&"):
        counts["structs"] += 1
        kind = re.sub(r"^&(mut )?", "", it.kind)
        return "void *", f"area[{counts['structs'] - 1}]", kind
    if it.name.endswith("_size"):
        return "size_t", "struct_size", None
    if it.name == "length" or it.name.endswith("_length"):
        of_input = f"length[{counts['inputs'] - 1}]"
        of_buffer = "buffer_length" if counts["buffers"] == 1 else "0"
        return "size_t", of_buffer if counts["is_buffer"] else of_input, None
    return IN_C[it.kind], NUMBERS.get(it.name, "number"), None


def call(library, at, function):
    """Returns the C function that makes a call, and its row in the table."""
    counts, found = {"inputs": 0, "structs": 0, "buffers": 0, "is_buffer": False}, []
    for it in passed(function.parameters):
        found.append(parameter(it, counts))
        counts["is_buffer"] = it.kind == "&mut u8"
    types, values = (", ".join(it[part] for it in found) for part in (0, 1))
    kinds = [it[2] for it in found if it[2]]
    masks = ", ".join(f'"{mask(library, kind)}"' for kind in kinds)
    cursor = kinds.index("Cursor") if "Cursor" in kinds else -1
    family = re.search(f"_({'|'.join([*HEADERS, 'filter'])})(_|$)", function.name)
    result = IN_C[function.answer]
    return (
        f"static uint64_t call_{at}(function f) {{\n"
        f"    return (({result} (*)({types or 'void'}))f)({values});\n}}\n",
        f'    {{.name = "{function.name}", .call = call_{at}, .cursor = {cursor}, '
        f'.family = "{family[1] if family else ""}", .mask = {{{masks or 0}}}}},\n',
    )


def calls():
    library = Library()
    both = [call(library, at, it) for at, it in enumerate(library.functions.values())]
    rows = "".join(row for _, row in both)
    return "".join(text for text, _ in both) + f"static struct call calls[] = {{\n{rows}}};\n"


def seeds(seed):
    """Yields (family, bytes): datagrams, messages, replies, attributes and their values."""
    for datagram in reply_reader.captured_datagrams():
        yield "any", datagram[:4096]
        for _, _, payload in reply_reader.messages(datagram):
            length = (16 + len(payload)).to_bytes(4, "little")
            yield "any", length + bytes.fromhex("140002000100000000000000") + payload
    chance = random.Random(seed)
    for _ in range(MADE):
        yield "filter", " ".join(chance.choices(WORDS, k=chance.randrange(1, 9))).encode()
    replies = [*reply_reader.stored_replies(), *reply_reader.made_replies(MADE, seed)]
    for family, payload in replies:
        yield family, payload
        attributes = payload[HEADERS[family] :]
        yield "any", attributes
        yield "any", attributes[4:]


def main():
    if len(sys.argv) not in (3, 4, 5):
        sys.exit(__doc__.splitlines()[0])
    libraries = [Path(it).resolve() for it in sys.argv[1:3]]
    rounds, seed = [*sys.argv[3:], *["20000", "1"][len(sys.argv) - 3 :]]
    with tempfile.TemporaryDirectory() as work:
        program = Path(work, "compare")
        Path(work, "calls.h").write_text(calls())
        lines = (f"{family} {data.hex()}\n" for family, data in seeds(int(seed)) if data)
        Path(work, "seeds").write_text("".join(dict.fromkeys(lines)))
        source = TOP / "tests/api/compare_libraries.c"
        flags = "-std=c11 -O2 -Wall -Wextra -Werror".split()
        compiler = os.environ.get("CC", "cc")
        subprocess.run([compiler, *flags, f"-I{work}", "-o", program, source, "-ldl"], check=True)
        return subprocess.run([program, *libraries, Path(work, "seeds"), rounds, seed]).returncode


if __name__ == "__main__":
    sys.exit(main())
