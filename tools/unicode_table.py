#!/usr/bin/env python3
"""tools/unicode_table.py KIT: writes tools/erased/src/kit/unicode_table.rs from the tables of the kit
in this folder, which has a folder for each crate. With --check it only compares the file.

Each entry has the end of a range of code points in its upper 21 bits, and the properties that its
characters have: by bits 0 to 2 the group of the general category, by 3 to 5 the class of direction,
by 6 whether it is ignored by default, by 7 and 8 its columns, by 9 whether a modifier of the skin
tone can follow. The numbers of groups and classes are those of tools/erased/src/kit/unicode.rs.
"""

import re
import sys
from pathlib import Path

TABLE = Path(__file__).resolve().parent / "erased/src/kit/unicode_table.rs"
CODE_POINTS = 0x110000
# The values of the kit's `GeneralCategory` in each group, first and last, and its classes of
# direction, in the order of the numbers from 1 on.
GROUPS = ((0, 4), (8, 10), (11, 17), (18, 21))
CLASSES = (9, 5, 6, 7, 4, 14)
# The columns of the kinds of the kit's `Kind`, and those of characters with a rule of their own.
COLUMNS = (0, 1, 2, 1, 1, 1, 1, 1, 1, 2, 2)
OWN_RULE = 11
OWN_COLUMNS = {
    0x5DC: 1, 0x17D8: 3, 0x1A10: 1, 0x10C03: 1, 0x16D67: 1, 0x16D68: 1, 0xFB3C: 1,
}


def arrays(path):
    """Returns the arrays of a source by the last word of their names, and its version of Unicode."""
    text = path.read_text("utf-8")
    found = re.findall(r"static \w*?([A-Z]+): \[u\d+; \d+\] = \[(.*?)\];", text, re.S)
    version = re.search(r"the data of (Unicode [\d.]+)\. ", text)[1]
    return version, {name: [int(it, 16) for it in re.findall(r"0x\w+", body)]
                     for name, body in found}


def expanded(runs):
    """Returns the value of each code point by runs: the end of each one times 2048, and its value."""
    values, start = [0] * CODE_POINTS, 0
    for run in runs:
        end, value = divmod(run, 2048)
        values[start:end] = [value] * (end - start)
        start = end
    return values


def of_trie(tables, bits, size):
    """Returns the value of each code point by the blocks of words of a trie, and the runs after."""
    values, slots = [], 64 // bits
    for block in tables["INDEX"]:
        for word in tables["WORDS"][block * size : block * size + size]:
            values += [word >> at * bits & (1 << bits) - 1 for at in range(slots)]
    values = values[:CODE_POINTS]
    return values + expanded(tables["TAIL"])[len(values) :]


def columns(kind, code):
    return OWN_COLUMNS.get(code, 0) if kind == OWN_RULE else COLUMNS[kind]


def group(category):
    return next((n for n, (low, high) in enumerate(GROUPS, 1) if low <= category <= high), 0)


def direction(value):
    return CLASSES.index(value) + 1 if value in CLASSES else 0


def table(kit):
    """Returns the text of the file."""
    version, categories = arrays(kit / "ucd_category/src/tables/gc.rt")
    directions = arrays(kit / "ucd_bidi/src/tables/bc.rt")[1]
    ignorable = arrays(kit / "ucd_derived/src/tables/default_ignorable_code_point.rt")[1]
    kinds = arrays(kit / "unicode_width/src/tables/kind.rt")[1]
    bases = arrays(kit / "unicode_width/src/tables/modifier.rt")[1]
    rows = zip(expanded(categories["RUNS"]), expanded(directions["RUNS"]),
               expanded(ignorable["RUNS"]), of_trie(kinds, 4, 4), of_trie(bases, 1, 8))
    values = [group(g) | direction(d) << 3 | i << 6 | columns(k, code) << 7 | base << 9
              for code, (g, d, i, k, base) in enumerate(rows)]
    ends = [at for at in range(1, CODE_POINTS) if values[at] != values[at - 1]] + [CODE_POINTS]
    words = [f"0x{end << 11 | values[end - 1]:08x}," for end in ends]
    lines = "".join("    " + " ".join(words[at : at + 8]) + "\n" for at in range(0, len(words), 8))
    return ("//! Properties of characters. tools/unicode_table.py writes this file from the kit's\n"
            f"//! tables for {version}, and describes the numbers.\n\n"
            f"#[rustfmt::skip]\npub static CLASSES: [u32; {len(words)}] = [\n{lines}];\n")


def main():
    if sys.argv[1:2] == ["--check"] and len(sys.argv) == 3:
        if TABLE.read_text("utf-8") != table(Path(sys.argv[2])):
            sys.exit(f"{TABLE} is not what tools/unicode_table.py writes")
    elif len(sys.argv) == 2 and not sys.argv[1].startswith("-"):
        TABLE.write_text(table(Path(sys.argv[1])), "utf-8")
    else:
        sys.exit(__doc__.splitlines()[0])


if __name__ == "__main__":
    main()
