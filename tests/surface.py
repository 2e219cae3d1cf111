#!/usr/bin/env python3
"""Compares what is public in the libraries of crates.txt, and what the package for Rust adds to them
by hand (`package`), with the list tests/surface.txt.

    tests/surface.py             prints the differences, and exits with status 1 if there are any
    tests/surface.py --write     writes the list

Each line is about one declaration. It has the crate, the module and the name, and then

- the declaration, of a struct without its private fields, of a trait without its members;
- the names of its clauses, ghost members and invariants, and a sum of their text, so that a changed
  contract is a difference;
- the constants of each enum of include/sockdiag.h;
- of a definition in specs/ that a promise reaches, by the rules of believed.py, and of a constant
  or a macro that one may depend on, a sum of its text.

Names are those of the declaring module: `pub mod` and `pub use` have lines too, and the path of a
user follows from these.

It expects sources that `rt fmt` has formatted. tests/edits.py finds functions by the same rules.
"""

import difflib
import hashlib
import re
import sys
from pathlib import Path

import believed

TOP = Path(__file__).resolve().parent.parent
LIST = TOP / "tests/surface.txt"
# The files of tools/erased/src with what the package for Rust adds to the libraries.
BY_HAND = ("*.rs", "kernel/*.rs", "kit/memory.rs", "kit/smallvec.rs")
# The first line of an item after its attributes: its visibility, its kind and its name.
ITEM = re.compile(
    r"(pub(?:\(\w+\))? )?(?:(?:unsafe|const(?= (?:unsafe )?(?:extern )?fn\b)|extern \"C\") )*"
    r"(mod|use|fn|struct|enum|union|trait|type|const|static|impl|ghost use|ghost|extern \"C\""
    r"|extern|[\w:]+!)\s*(\w*)"
)
ATTRIBUTE = re.compile(r"\s*#!?\[[^\n]*?\]\s*?(?=\n|$)|\s*#!?\[.*?\)\]|\s*//[^\n]*", re.S)
# Attributes that concern a user.
USED = re.compile(r"#\[(?:derive|repr|unsafe|must_use|non_exhaustive|error|cfg)\b.*?\]", re.S)
GENERICS = re.compile(r"<(?:->|[^<>]|<[^<>]*>)*>")
CLAUSE = re.compile(r"\s(ghost|requires|ensures)\*?(?: (\w+))?(?::| =|) \{")
EXPORTED = "#[unsafe(no_mangle)]"


def libraries():
    """Returns the crates of crates.txt, except programs and crates of tests."""
    crates = re.findall(r"(?m)^\w+", (TOP / "crates.txt").read_text("utf-8"))
    return [it for it in crates if not it.endswith("_tests")
            and (TOP / "crates" / it / "src/lib.rt").exists()]


def one_line(text):
    """Returns a text as one line without comments, which does not depend on line breaks."""
    text = believed.UNREAD.sub(lambda it: "" if it[0].startswith("//") else it[0], text)
    text = re.sub(r"([(\[<]) ", r"\1", " ".join(text.split()))
    return re.sub(r",? ([)\]>])", r"\1", text.replace(", }", " }")).rstrip(",")


def short_sum(text):
    return hashlib.sha256(text.encode()).hexdigest()[:8]


class Item:
    """A declaration: its attributes, its text from its first line on, and where its body begins."""

    def __init__(self, lines, indent):
        text = "\n".join(lines)
        end = 0
        while found := ATTRIBUTE.match(text, end):
            end = found.end()
        self.attributes, self.text = text[:end], text[end:].lstrip("\n")
        found = ITEM.match(self.text.strip())
        if not found:
            sys.exit(f"tests/surface.py: unknown item {self.text[:80]}")
        self.public, self.kind, self.name = found[1] == "pub ", found[2], found[3]
        bare = believed.blanked(self.text)
        body = re.search(rf"(?m)^ {{{indent}}}\{{$|^ {{{indent}}}\S.* \{{$|^ {{{indent}}}.*\{{\}}$",
                         bare)
        self.start = body.end() if body else len(self.text)
        self.head = self.text[: body.start() if body and body[0].strip() in "{}" else self.start]

    def members(self):
        """Returns the items in the body of an impl or a trait."""
        return [*items(self.text[self.start:].rpartition("\n}")[0], 4)]

    def contract(self, names):
        """Returns the names of the clauses or ghost members, and the sum of their text and of the
        imports that rename by `as` what they name, to be appended to a line."""
        text = self.head if self.kind == "fn" else self.text
        found = [*CLAUSE.finditer(text)]
        if not found:
            return ""
        whole = one_line(text[found[0].start():])
        words = {*re.findall(r"\w+", whole)}
        whole += "".join(f"{new} {path} {old}" for new, (path, old) in sorted(names.items())
            if new in words and old not in (None, new))
        kinds = {}
        for it in found:
            kinds.setdefault(it[1], []).append(it[2] or "_")
        shown = "".join(f"; {kind} {', '.join(them)}" for kind, them in kinds.items())
        return f"{shown}; {short_sum(whole)}"


def items(text, indent=0):
    """Yields each item of a module, or of the body of an impl or a trait."""
    lines, found, depth = text.splitlines(), [], 0
    for line, bare in zip(lines, believed.blanked(text).splitlines()):
        if not found and not bare.strip():
            continue
        found.append(line)
        depth += sum(map(bare.count, "([{")) - sum(map(bare.count, ")]}"))
        is_outer = len(bare) - len(bare.lstrip()) == indent
        ends = bare.rstrip().endswith(";") or is_outer and bare.rstrip().endswith("}")
        if depth == 0 and ends:
            item = Item(found, indent)
            found = []
            yield item


def module_of(path):
    """Returns the module of a file in the folder src of a crate; "" is the root."""
    names = list(Path(path).with_suffix("").parts[3:])
    return "::".join(names[:-1] if names[-1] in ("lib", "mod") else names)


class Crate:
    """The files of a crate, in a folder `src`: the path of each, and its items."""

    def __init__(self, name, paths):
        self.name, self.files = name, []
        specs = (TOP / "crates").glob("*/specs/**/*.antt")
        self.cited = {word for it in specs for word in re.findall(r"\w+", it.read_text("utf-8"))}
        for path in sorted(paths):
            text = path.read_text("utf-8")
            module = module_of(path.relative_to(TOP))
            full = "::".join(filter(None, (name, module)))
            self.files.append((full, [*items(text)], believed.imports(text)))
        declared = [it for _, found, _ in self.files for it in found
            if it.kind in ("struct", "enum", "union", "trait")]
        self.private = {it.name for it in declared if not it.public}

    def lines(self):
        for path, found, names in self.files:
            for item in found:
                yield from self.lines_of(f"{path}::{item.name}", path, item, names)

    def lines_of(self, path, module, item, names):
        """Yields the lines about an item of a module."""
        used = "".join(f"; {one_line(it)}" for it in USED.findall(item.attributes))
        if item.kind == "impl":
            yield from self.lines_of_impl(module, item, names)
        elif item.kind in ("const", "static", "macro_rules!") and not item.public:
            if item.kind == "macro_rules!" or item.name in self.cited:
                yield f"{path}: {item.kind}; {short_sum(one_line(item.text))}"
        elif item.kind.endswith("!"):
            yield f"{module}: {one_line(item.text)}"
        elif item.kind == "trait" and item.public:
            yield f"{path}: {one_line(item.text[: item.start]).rstrip(' {')}{used}"
            for it in item.members():
                given = "provided " if it.start < len(it.text) or "} = {" in it.text else ""
                yield f"{path}::{it.name}: {given}{shown(it)}{it.contract(names)}"
        elif item.public or EXPORTED in item.attributes:
            path = module if item.kind == "use" else path
            yield f"{path}: {shown(item)}{used}{item.contract(names)}"

    def lines_of_impl(self, module, item, names):
        """Yields the lines about an impl, unless its type or its trait is private."""
        head = one_line(item.text[: item.start]).rstrip(" {}")
        trait, _, of = GENERICS.sub("", head.removeprefix("impl")).rpartition(" for ")
        if self.private & {*re.findall(r"\w+", f"{trait} {of.partition(' where ')[0]}")}:
            return
        if trait:
            types = [shown(it) for it in item.members() if it.kind in ("type", "const")]
            yield f"{module}: {'; '.join([head, *types])}{item.contract(names)}"
        else:
            of = re.search(r"\w+", of)[0]
            bounds = f" in {head}" if ": " in head else ""
            for it in item.members():
                if it.public:
                    yield f"{module}::{of}::{it.name}: {shown(it)}{bounds}{it.contract(names)}"


def shown(item):
    """Returns the declaration of an item without its clauses and without its private parts."""
    if item.kind == "ghost":
        return "ghost"
    if item.kind == "fn":
        clause = CLAUSE.search(item.head)
        return one_line(item.head[: clause.start() if clause else None]).rstrip(" {};")
    if item.kind not in ("struct", "union"):
        return one_line(re.sub(r"(?m)^\s*ghost .*$", "", item.text)).rstrip(";")
    if item.start == len(item.text):
        name, bracket, fields = item.text.partition("(")
        fields = re.sub(r"(?<=[(,])(?! ?pub)[^,)]+", "private", bracket + fields)
        return one_line(name + fields).rstrip(";")
    lines = [it for it in item.text[item.start:].splitlines() if it.startswith("    pub ")]
    hidden = re.search(r"(?m)^    (?!pub |ghost |//|requires|ensures|#)\w+: ", item.text)
    return one_line("\n".join([item.text[: item.start], *lines, "}"])) + "; private" * bool(hidden)


def definition_lines():
    """Yields the line of each definition that a promise reaches."""
    _, specs = believed.follow_promises()
    for module, item in specs.reached(believed.CRATES + believed.OTHERS):
        if item.kind != "module":
            yield f"{module.name}: {item.name}; {short_sum(module.text_of(item))}"


def header_lines():
    """Yields a line for each enum of the C header."""
    text = (TOP / "include/sockdiag.h").read_text("utf-8")
    for name, inside in re.findall(r"(?m)^enum (\w+) \{\n((?s:.*?))^\}", text):
        yield f"sockdiag.h: enum {name}; " + ", ".join(re.findall(r"SOCKDIAG_(\w+ = \w+)", inside))


def main():
    if sys.argv[1:] not in ([], ["--write"]):
        print("usage: tests/surface.py [--write]", file=sys.stderr)
        return 2
    crates = {it: (TOP / "crates" / it / "src").rglob("*.rt") for it in libraries()}
    crates["package"] = [path for it in BY_HAND for path in (TOP / "tools/erased/src").glob(it)]
    lines = [line for name, paths in crates.items() for line in Crate(name, paths).lines()]
    lines = sorted({*lines, *definition_lines(), *header_lines()})
    if sys.argv[1:]:
        LIST.write_text("\n".join(lines) + "\n", "utf-8")
    listed = LIST.read_text("utf-8").splitlines()
    if lines == listed:
        return 0
    print(*difflib.unified_diff(listed, lines, LIST.name, "sources", n=0, lineterm=""), sep="\n")
    print("tests/surface.py: the list is out of date; if the changes are intended, run "
          "tests/surface.py --write")
    return 1


if __name__ == "__main__":
    sys.exit(main())
