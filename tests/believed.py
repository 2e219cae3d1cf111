#!/usr/bin/env python3
"""Prints what must be believed: the definitions that the contracts of all crates depend on, in the
crates of the port and of the program `sockdiag` and in `netlink_captures` (module: name, lines,
comment); the members by which impls name their definitions; and the number of definitions and lines
of each crate.

With `--of CRATE::FUNCTION`, prints where the clauses of one contract are, and the definitions that
they depend on, each once, with its file and line: a definition follows the one that names it, and
is indented below it. For a function of another crate the definitions of these crates are not
followed. They are listed after the others, and then the types and constants of the code,
and the names of the kit. The modules and the type of the function may be given too, as in
`netlink_core::Wire::read`. Members of traits that a contract names are listed and not followed: the
impls name their definitions. If a member has members of its own, the used ones are listed too, such
as `T.codec.equivalent`, and so are those of an argument of a definition, such as `C.parses`.

A ghost member is named like a function, as in `netlink_core::Exact::exact`. An impl of a trait is
named by its type and its trait, as in `netlink_captures::<CaptureError as Display>`, or by a
method, as in `netlink_captures::CaptureError::fmt`. Its contract has the ghost members of the impl,
such as `output`, their types in the trait, and the clauses of the method in the trait. The body of
a member is not followed if it is a proof.

The roots are the clauses of public functions and of the methods of public traits, the invariants of
public structs, and the ghost members of public traits and of their impls. From each root the script
follows the names that it contains, through the imports, to definitions in specs/, and from each
definition in the same way. It does not follow lemmas, declarations of Rust types, which are code,
or definitions of the kit. It takes each use of an imported name as a reference: the modules do not
give a variable the name of an import.

With `--of`, of a record only the fields are followed that are used. Without an option the script
fails, with status 1, if an import that is used is not found in its module, if a lemma is in a
module of definitions, or if a promise reaches a module that need not be believed.
"""

import os
import re
import subprocess
import sys
from functools import cache
from pathlib import Path

ROOT = Path(__file__).resolve().parent.parent / "crates"


def libraries(crate):
    """Returns the libraries of crates.txt that a crate depends on."""
    run = subprocess.run([ROOT.parent / "tools/libraries", crate], stdout=subprocess.PIPE,
                         text=True, check=True)
    return run.stdout.split()


PORT = [*libraries("netlink_packet_sock_diag"), "netlink_packet_sock_diag"]
# The libraries of the program `sockdiag`.
PROGRAM = [it for it in libraries("sockdiag") if it not in PORT]
# The library of sslist that reads files.
CAPTURES = ["netlink_captures"]
CRATES = PORT + PROGRAM + CAPTURES
# The other crates except those of tests. Their definitions are only counted.
OTHERS = [it for it in re.findall(r"(?m)^\w+", (ROOT.parent / "crates.txt").read_text("utf-8"))
    if it not in CRATES and not it.endswith("_tests")]
# A module of these crates, except those that are generated from Rust.
OURS = re.compile(rf"Rattle\.({'|'.join(CRATES + OTHERS)})\.specs\.(?!declared|contracts)")
# Ghost members whose bodies need not be read. Most are laws, and their bodies are proofs. `eq`,
# `test` and `tests` compute the result of `==`, which `eq_is_model`, `compared` and the functions
# of laws.rt state without them. `parses_as` relates a line to what a private struct retains of it
# until it is answered.
LAWS = set("""laws fills exact eq_is_model bytes_by_codec writable_by_codec
    bytes_by_attribute writable_by_attribute attribute_by_model compared eq tests test enough keeps
    same always_writable parses_as""".split())
# Private items that count as promises: functions whose clauses the READMEs of crates cite, a struct
# whose invariant docs/DECISIONS.md cites, and the trait whose impls define what the invariant
# names.
CITED = {"serve", "read_prompt", "utc_text", "push_shown", "report_failure", "push_path",
    "push_abstract", "GenericDump", "DumpEntry"}
# Folders in specs/ with modules that need not be believed: lemmas and what they need, definitions
# that only the contracts of private functions need, and the inverses of layouts' `values`. Only a
# layout may refer to an inverse. The script does not follow this reference: the law
# `parsed_iff_contained` states what is parsed without the inverse.
LEMMAS, PRIVATE, INVERSE = ".specs.laws.", ".specs.private.", ".specs.inverse."
# Definitions that a law determines. Whoever believes the law need not read how they are computed:
# their types are followed, their equations are not. The laws are found_values_are_the_attributes,
# value_is_found_under_its_kind, inet_values_are_variants and unix_values_are_variants.
DETERMINED = {"decoded_in", "value_of_kind", "inet_variant", "unix_variant"}
# A function without a keyword is a definition if its result has one of these types, and otherwise a
# lemma.
COMPUTES = re.compile(
    r"ℕ|(List|Bool|Option|Result|Type|Codec|Layout|AttributeSet|AttributeSpec|ValueCodec"
    r"|IpVersion)\b"
)
WORDS = re.compile(r"\w+").findall
WORD = r"[A-Za-z_](?:[A-Za-z0-9_']|-(?=[A-Za-z]))*"
TOKEN = re.compile(
    rf"⟦[^⟧]*⟧|(?<=[)\]}}⟧])\.[\w.]+|(?P<path>{WORD}(?:\.(?:{WORD}|\d+))*)|\d\w*|\"[^\"]*\"|==|\S"
)
USE = re.compile(r"\buse\s+([\w.]+?)(?:\.\{([^}]*)\}|\s+as\s+(\w+))\s*(?:;|$)", re.M)
# Comments and literals of Rattle code.
UNREAD = re.compile(r"//[^\n]*|\"(?:\\.|[^\"\\])*\"|(?<![\w'])b?'(?:\\[^']*|[^'\\\n])'", re.S)
# The name of a field in a record, and of a value in `record { .. }`, with the blanks before it.
MEMBER = re.compile(rf"(\s+)(?:pub )?({WORD}) :")
VALUE = re.compile(rf"(\s+)({WORD}) =(?!=)")
# A projection of a field, of a name or of a term in brackets.
PROJECTION = re.compile(rf"(?<=[\w'\])}}⟧])\.({WORD})")
# The first line of a definition, a lemma or a module of parameters.
START = re.compile(
    rf"(?:(abbrev|unfoldable) )?(?:pub )?({WORD})(?: \{{\w+\}})? :"
    rf"|(?:pub )?(record|data|module) ({WORD})"
)


def blanked(text):
    """Returns Rattle code with blanks in place of comments and literals."""
    return UNREAD.sub(lambda it: re.sub(r"[^\n]", " ", it[0]), text)


def paths_in(text):
    """Returns the paths in the text, names separated by points, except labels of records."""
    tokens = [*TOKEN.finditer(text), None]
    return [
        one.group() for one, after in zip(tokens, tokens[1:])
        if one.group("path") and not (after and after.group() == "=")
    ]


def imports(text):
    """Returns the module and the name that each imported name refers to; None for a module."""
    names = {}
    for path, listed, alias in USE.findall(text):
        names |= {alias: (path, None)} if alias else {}
        for name, other in re.findall(r"([^\s,]+)(?:\s+as\s+([^\s,]+))?", listed):
            names[other or name] = (path, name)
    return names


class Item:
    """A definition, a lemma, or the head of a module of parameters. `heads` are those around it."""

    def __init__(self, kind, name, line, comment, heads, place):
        self.kind, self.name, self.lines, self.comment = kind, name, [line], comment
        self.heads, self.reached, self.place = heads, False, place
        self.indent = len(line) - len(line.lstrip())

    def head(self):
        """Returns the text before the equations."""
        text = "\n".join(self.lines)
        return re.split(rf"(?m)^ {{{self.indent}}}{re.escape(self.name)}(?=\s)", text)[0]

    @cache
    def result(self):
        """Returns the type after the last arrow that is outside of brackets."""
        head, depth, start = self.head(), 0, 0
        for at, sign in enumerate(head):
            depth += (sign in "({[") - (sign in ")}]")
            if depth == 0 and (sign == "→" or sign == ":" and start == 0):
                start = at + 1
        return head[start:].strip()

    def is_lemma(self):
        result = self.result()
        computes = COMPUTES.match(result) and not re.search("[≡≢≤<↔]", result)
        return self.kind == "" and not computes

    def labels(self):
        """Returns the fields of a record, or the constructors of a type."""
        if self.kind not in ("record", "data"):
            return []
        found = re.findall(rf"(?m)^\s+(?:pub )?({WORD}(?: {WORD})*) :", "\n".join(self.lines))
        return " ".join(found).split()

    @cache
    def members(self):
        """Returns the lines of the definition without its members, and those of each member, by its
        name. A record of `Type 1`, such as `Codec`, has its fields as members, and a definition
        that is one `record { .. }` its values. Any other has none: of a proposition all is read."""
        starts = VALUE if re.search(r"=\s+record \{$", self.lines_to_brace()) else None
        if self.kind == "record" and self.lines[0].endswith("Type 1 where"):
            starts = MEMBER
        lines, members, indent, name = [], {}, None, None
        for line in self.lines:
            start = starts and starts.match(line)
            if start and indent in (None, len(start[1])) and line is not self.lines[0]:
                indent, name = len(start[1]), start[2]
            elif len(line) - len(line.lstrip()) < (indent or 0):
                name = None
            (members.setdefault(name, []) if name else lines).append(line)
        return lines, members

    def lines_to_brace(self):
        """Returns the text up to the first brace after the head, if there is one."""
        text = "\n".join(self.lines)
        return text[: text.find("record {", len(self.head())) + len("record {")]

    def read_lines(self, unused=()):
        """Returns the lines that are read if these fields of records are not used."""
        rest, members = self.members()
        return rest + [line for name in members if name not in unused for line in members[name]]

    def paths(self, unused=()):
        """Returns the paths that have to be followed if these fields of records are not used."""
        lines = self.read_lines(unused)
        text = self.head() if self.name in DETERMINED else "\n".join(lines)
        own = {self.name, *self.labels()}
        return [path for path in paths_in(text) if path.split(".")[0] not in own]


class Module:
    """A module of specs/ or proofs/: its items, and what names refer to in it."""

    def __init__(self, path):
        text, self.items, heads, item, comment = path.read_text("utf-8"), {}, [], None, []
        file = path.relative_to(ROOT)
        self.name = ".".join(file.with_suffix("").parts)
        for number, line in enumerate(text.splitlines(), 1):
            words, indent = line.strip(), len(line) - len(line.lstrip())
            if words.startswith("--"):
                comment.append(words.strip("- "))
                continue
            if words and not re.match(r"(pub )?(use|mod) ", words):
                heads = [head for head in heads if head.indent < indent]
                is_outer = indent == (heads[-1].indent + 2 if heads else 0)
                start = START.match(words) if is_outer else None
                if start:
                    kind, name = start[1] or start[3] or "", start[2] or start[4]
                    place = f"crates/{file}:{number}"
                    item = Item(kind, name, line, " ".join(comment), heads, place)
                    self.items[f"module {number}" if kind == "module" else name] = item
                    heads = heads + [item] if kind == "module" else heads
                elif item:
                    item.lines.append(line)
            comment = []
        self.things = {part: it for it in self.items.values() if it.kind == "data"
                       for part in it.labels()} | self.items
        full_name = f"Rattle.{self.name}"
        self.names = imports(text) | {thing: (full_name, thing) for thing in self.things}

    def text_of(self, item):
        """Returns the text of an item and of the module heads around it, without comments and line
        breaks, followed by what each of its names refers to."""
        lines = [line for one in [*item.heads, item] for line in one.lines]
        named = {path.split(".")[0] for path in paths_in("\n".join(lines))}
        lines += [f"{name} {self.names[name]}" for name in sorted(named & self.names.keys())]
        return " ".join(" ".join(lines).split())


class Source:
    """A file of src/, without comments and literals."""
    BLOCK = re.compile(r"^[ ]*(pub |pub\(\w+\) )?(trait|impl|struct)\b([^{;]*)\{", re.M)
    FUNCTION = re.compile(r"(pub |pub\(\w+\) )?(?:const )?(?:extern\s+)?\bfn (\w+)")
    CLAUSE = re.compile(r"\b(?:requires|ensures)\s*\w*\s*(\{)")
    GHOST = re.compile(r"(?:\bghost (?!use\b)(\w+)|\})\s*([:=])\s*(\{)")

    def __init__(self, path, private_traits):
        text, self.private_traits = path.read_text("utf-8"), private_traits
        self.file = path.relative_to(ROOT.parent)
        self.modules = path.relative_to(ROOT).with_suffix("").parts
        self.text = blanked(text)
        self.blocks = [(m, self.closing(m.end() - 1)) for m in self.BLOCK.finditer(self.text)]

    def closing(self, at):
        """Returns the index of the brace that closes the one at `at`."""
        depth = 0
        for brace in re.compile(r"[{}]").finditer(self.text, at):
            depth += 1 if brace[0] == "{" else -1
            if depth == 0:
                return brace.start()
        return len(self.text)

    def block(self, at):
        """Returns the trait, impl or struct around an index, or None."""
        return next((m for m, end in self.blocks if m.start() <= at < end), None)

    def is_promised(self, block):
        """Returns whether the members and methods of a trait or impl, or the invariants of a
        struct, are promises."""
        of = re.search(r"(\w+)(<[^{]*?>)? for ", block[3])
        trait = re.search(r"\w+", block[3])[0] if block[2] == "trait" else of and of[1]
        if trait:
            return trait not in self.private_traits
        return block[2] == "struct" and block[1] == "pub "

    @cache
    def clauses(self):
        """Returns for each clause where it starts, the name of its function, the `pub` of this
        function, and the trait, impl or struct around it, or None."""
        found, functions = [], [*self.FUNCTION.finditer(self.text)]
        for clause in self.CLAUSE.finditer(self.text):
            function = [it for it in functions if it.end() <= clause.start()][-1]
            found.append((clause.start(1), function[2], function[1], self.block(function.start())))
        return found

    def members(self):
        """Yields where the type or the body of each ghost member starts, its name, the sign before
        it, and the trait, impl or struct around it."""
        name = None
        for ghost in self.GHOST.finditer(self.text):
            name = ghost[1] or name
            yield ghost.start(3), name, ghost[2], self.block(ghost.start())

    def parts(self):
        """Yields the parts of all contracts."""
        for at, name, _, block in self.clauses():
            yield Part(self, at, name, block)
        for at, name, sign, block in self.members():
            yield Part(self, at, name, block, "proof" if sign == "=" and name in LAWS else "")
        for block, _ in self.blocks:
            if " for " in block[3]:
                yield Part(self, block.start(2), None, block, "impl")

    def promises(self):
        """Yields where each promise starts: a clause, or the type or the body of a ghost member."""
        for at, name, visibility, block in self.clauses():
            if visibility == "pub " or name in CITED or block and self.is_promised(block):
                yield at
        for at, _, _ in self.ghosts():
            yield at

    def ghosts(self):
        """Yields each ghost member that is a promise: where its type or its body starts, its name,
        and whether this is the body in an impl."""
        for at, name, sign, block in self.members():
            cited = block[2] != "trait" and not CITED.isdisjoint(re.findall(r"\w+", block[3]))
            if (sign == ":" or name not in LAWS) and (cited or self.is_promised(block)):
                yield at, name, sign == "=" and block[2] == "impl"

    def roots(self, starts):
        """Yields each path of the clauses and members that start there, and what names refer to
        there."""
        uses = [(self.block(use.start()), imports(use[0]))
                for use in re.finditer(r"\bghost use [^;]*;", self.text)]
        for at in starts:
            names = {}
            for block, listed in uses:
                names |= listed if block in (None, self.block(at)) else {}
            for path in paths_in(self.text[at + 1 : self.closing(at)]):
                yield path, names


class Part:
    """A part of a contract: a clause, the type or the body of a ghost member, or an impl of a trait.
    `name` is the name of the function or of the member, and `owner` the trait or the type around
    it. Of an impl of a trait, `type` has the words of the type, and `methods` its functions. If
    there is a kind, `proof` or `impl`, the part is not followed."""

    def __init__(self, source, at, name, block, kind=""):
        self.source, self.at, self.name, self.kind = source, at, name, kind
        head, self.methods = block[3] if block else "", []
        self.is_trait = bool(block) and block[2] == "trait"
        bare = head
        for _ in range(3):
            bare = re.sub(r"<[^<>]*>", "", bare)
        before, of_trait, _ = bare.partition(" for ")
        self.head, self.type = WORDS(head), WORDS(head.partition(" for ")[2])
        self.owner = (WORDS(before) or [""])[-1 if of_trait else 0]
        if of_trait:
            inside = source.text[block.start() : source.closing(block.end() - 1)]
            self.methods = [function[2] for function in source.FUNCTION.finditer(inside)]

    def is_named(self, crate, words):
        """Returns whether a path with these words names the contract."""
        around, (*others, last) = {*self.source.modules, *self.head}, words
        if self.type and {"as", "for"}.intersection(words):
            is_named = {"as", *around, *self.methods}.issuperset(words)
        else:
            is_named = last in (self.name, *self.methods) and around.issuperset(others)
            is_named &= not self.type or not {*others[-1:]}.isdisjoint(self.type)
        return is_named and self.source.modules[0] == crate

    def paths(self):
        """Returns the paths that name the contract."""
        crate = self.source.modules[0]
        if self.type:
            methods = [f"{crate}::{self.type[0]}::{method}" for method in self.methods]
            return [f"{crate}::<{self.type[0]} as {self.owner}>", *methods]
        return [f"{crate}::{self.owner}::{self.name}" if self.owner else f"{crate}::{self.name}"]

    def place(self):
        """Returns the file, the line, and the text before the brace."""
        text = self.source.text
        start, end = text.rfind("\n", 0, self.at) + 1, text.find("{", self.at)
        shown = " ".join(text[start:end].rpartition("}")[2].split())
        shown = f"ghost {self.name} =" if shown == "=" else shown
        shown += " (a proof)" * (self.kind == "proof")
        return f"{self.source.file}:{text.count(chr(10), 0, start) + 1}: {shown}"


class Specs:
    """All modules of specs/ and proofs/, with the definitions that the promises reach."""

    def __init__(self):
        self.modules, self.errors = {}, []
        for crate in CRATES + OTHERS:
            for pattern in ("specs/**/*.antt", "proofs/*.antt"):
                for path in sorted((ROOT / crate).glob(pattern)):
                    module = Module(path)
                    self.modules[f"Rattle.{module.name}"] = module

    def find(self, path, names):
        """Returns the module and the item that a path refers to; None if they are not of specs/ or
        proofs/ of these crates."""
        head, *rest = path.split(".")
        target, name = names.get(head, ("", ""))
        if OURS.match(target) and target not in self.modules:
            self.errors.append(f"{path}: there is no module {target}")
        module = self.modules.get(target)
        item = module and module.things.get(name or "".join(rest[:1]))
        if module and not item:
            self.errors.append(f"{path} is not in {module.name}")
        return module, item

    def followed(self, path, names, by=None):
        """Returns the module and the definition that a path refers to, if it has to be followed."""
        module, item = self.find(path, names)
        is_inverse = by and by.result().startswith("Layout ") and module and INVERSE in module.name
        if not item or is_inverse or item.kind == "module" or item.is_lemma():
            return None, None
        return module, item

    def reach(self, path, names, by=None):
        """Marks the definition that a path refers to, and all that it depends on, as reached."""
        module, item = self.followed(path, names, by)
        for one in [item, *item.heads] if item else []:
            if not one.reached:
                one.reached = True
                for other in one.paths():
                    self.reach(other, module.names, one)

    @cache
    def fields(self):
        """Returns the names of the fields of records whose fields count one by one."""
        items = [item for module in self.modules.values() for item in module.items.values()]
        return {name for item in items if item.kind == "record" for name in item.members()[1]}

    def reached(self, crates):
        """Yields each reached item of these crates, with its module."""
        for module in self.modules.values():
            if module.name.split(".")[0] in crates:
                yield from ((module, item) for item in module.items.values() if item.reached)


class Outline:
    """The definitions that some contracts depend on. Those in the crates `ends` are not followed,
    and of records only the fields that are used somewhere: `parses` of a codec depends on no other
    member of it."""

    def __init__(self, specs, ends, roots):
        self.specs, self.ends, self.used, used = specs, ends, set(), None
        while used != self.used:
            used, self.unused = {*self.used}, specs.fields() - self.used
            self.seen, self.lines, self.others = set(), [], []
            self.members, self.code, self.kit = set(), set(), set()
            for text, path, names in roots:
                self.used.update(PROJECTION.findall(text))
                self.add(path, names)

    def add(self, path, names, depth=0, by=None):
        """Adds the definition that a path refers to, and then all that it depends on."""
        module, item = self.specs.followed(path, names, by)
        if not module:
            self.add_end(path, names)
        elif id(item) not in self.seen:
            self.seen.add(id(item))
            line = f"{item.place}: {item.name}: {item.comment}"
            if module.name.split(".")[0] in self.ends:
                self.others.append(line)
                return
            self.lines.append("  " * depth + line)
            for one in [*item.heads, item]:
                for line in one.read_lines(self.unused):
                    self.used.update(PROJECTION.findall(line))
                for other in one.paths(self.unused):
                    self.add(other, module.names, depth + 1, one)

    def add_end(self, path, names):
        """Adds a member of a trait, a type or a constant of the code, or a name of the kit."""
        head, *rest = path.split(".")
        target, name = names.get(head, ("", ""))
        if rest and not target and re.fullmatch("Self|[A-Z]", head):
            self.members.add(path)
        name = name or "".join(rest[:1])
        crate, _, module = target.removeprefix("Rattle.").partition(".specs.")
        if crate not in CRATES + OTHERS:
            self.kit |= {f"{crate}.specs.{module}.{name}"} if module else set()
        elif module.startswith("declared."):
            *parts, last = module.removeprefix("declared.").removesuffix(".TheVariants").split(".")
            name = name if last == "TheConstants" else last
            self.code.add(self.declaration(ROOT / crate / "src" / "/".join(parts), name))

    @staticmethod
    @cache
    def declaration(path, name):
        """Returns the file and the line of a type or a constant of the code, and its name."""
        file = path.with_suffix(".rt") if path.with_suffix(".rt").is_file() else path / "mod.rt"
        declares = re.compile(rf"\b(?:struct|enum|const|static|type|trait) {re.escape(name)}\b")
        lines = file.read_text("utf-8").splitlines() if file.is_file() else []
        at = next((number for number, line in enumerate(lines, 1) if declares.search(line)), "")
        return f"{file.relative_to(ROOT.parent)}:{at}: {name}"


def misplaced(specs):
    """Yields a message for each lemma among the definitions, and for each definition that is
    reached in a folder that need not be believed."""
    for module in specs.modules.values():
        for name, item in module.items.items():
            is_apart = any(folder in module.name for folder in (LEMMAS, PRIVATE, INVERSE))
            if item.kind == "" and item.is_lemma() and ".specs." in module.name and not is_apart:
                yield f"{module.name}: {name} is a lemma in a module of definitions"
            if item.kind != "module" and item.reached and is_apart:
                yield f"{module.name}: a promise reaches {name}"


def sums(specs, crates):
    """Returns the number of reached definitions in specs/ of these crates, and of their lines."""
    reached = [item for module, item in specs.reached(crates) if ".specs." in module.name]
    lines = sum(len(item.lines) for item in reached)
    return f"{sum(item.kind != 'module' for item in reached)} definitions, {lines} lines"


def sources():
    """Returns all files of src/ of these crates, except tests."""
    paths = [path for crate in CRATES + OTHERS for path in (ROOT / crate).glob("src/**/*.rt")
             if "/tests" not in path.relative_to(ROOT).as_posix()]
    trait = re.compile(r"^\s*(?:pub\(\w+\) )?trait (\w+)", re.M)
    private = {name for path in paths for name in trait.findall(path.read_text("utf-8"))}
    return [Source(path, private) for path in paths]


def parts_of(crate, words, parts):
    """Returns the parts of the contract that a path names. For an impl of a trait these include the
    parts of the trait that have the name of a member, or the last name of the path."""
    named = [part for part in parts if part.is_named(crate, words)]
    named.sort(key=lambda part: (part.source.file, part.at))
    stated = {(part.owner, name) for part in named if part.type for name in (part.name, words[-1])}
    return named + [part for part in parts if part.is_trait and (part.owner, part.name) in stated]


def roots_of(parts):
    """Returns for each path of these parts the text around it, the path, and what names refer to."""
    return [(part.source.text[part.at : part.source.closing(part.at)], name, names)
            for part in parts if not part.kind for name, names in part.source.roots([part.at])]


def print_of(path):
    """Prints the definitions that the contract of a path depends on."""
    crate, _, rest = path.partition("::")
    crate, rest = (crate, rest) if crate in CRATES + OTHERS else ("", path)
    parts = [part for source in sources() for part in source.parts()]
    found = parts_of(crate, WORDS(rest) or [""], parts)
    if not found:
        names = {other for part in parts for other in part.paths()}
        close = sorted(it for it in names if WORDS(it)[-1:] == WORDS(path)[-1:])
        print(f"{path} has no clauses and no members; the same name:", *close or ["none"],
              sep="\n", file=sys.stderr)
        return 1
    outline = Outline(Specs(), [] if crate in CRATES else CRATES, roots_of(found))
    print(f"the contract of {path}:", *[part.place() for part in found], sep="\n")
    for title, lines in (
            ("definitions", outline.lines),
            ("members of traits and arguments", sorted(outline.members)),
            ("the port and the program", outline.others),
            ("the code", sorted(outline.code)), ("the kit", sorted(outline.kit))):
        if lines:
            print(f"{title}:", *lines, sep="\n")
    return 0


def follow_promises():
    """Returns all sources, and all modules, in which what the promises reach is marked."""
    specs, files = Specs(), sources()
    for source in files:
        for path, names in source.roots(source.promises()):
            specs.reach(path, names)
    return files, specs


def print_all():
    """Prints all definitions that must be believed, and their numbers."""
    files, specs = follow_promises()
    for module, item in specs.reached(CRATES):
        name = item.name
        if item.kind == "module":
            name = f"not a definition, arguments of those below: {item.lines[0].strip()}"
        print(f"{module.name}: {name}, {len(item.lines)}, {item.comment}")
    members = {name for source in files for _, name, is_impl in source.ghosts() if is_impl}
    print(f"members of impls that name definitions: {', '.join(sorted(members))}")
    for title, crates in (("the port", PORT), ("the program sockdiag", PROGRAM),
                          ("captures", CAPTURES), ("extension crates and programs", OTHERS)):
        for crate in crates:
            print(f"{crate}: {sums(specs, [crate])}")
        print(f"{title}: {sums(specs, crates)}")
    wrong = [*specs.errors, *misplaced(specs)]
    print(*wrong, f"tests/believed.py: {len(wrong)} errors", sep="\n", file=sys.stderr)
    return 1 if wrong else 0


def main(arguments):
    if arguments[:1] == ["--of"] and len(arguments) == 2:
        return print_of(arguments[1])
    if arguments:
        print("usage: tests/believed.py [--of CRATE::FUNCTION | --of 'CRATE::<TYPE as TRAIT>']",
            file=sys.stderr)
        return 2
    return print_all()


if __name__ == "__main__":
    try:
        sys.exit(main(sys.argv[1:]))
    except BrokenPipeError:
        # Nobody reads the rest, as with `| head`.
        os.dup2(os.open(os.devnull, os.O_WRONLY), sys.stdout.fileno())
        sys.exit(1)
