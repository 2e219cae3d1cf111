#!/usr/bin/env python3
"""Refuses three changes that no proof and no list of public items shows, and what nothing uses:

- an import that gives an item the name of another one. `use a::{X as Y, Y as X}` exchanges two
  constants in a body and in its clauses at once, so it is proved;
- a constant with the name of a public item of a crate that its crate uses, or a private one with
  that of a public item of its own crate. In place of an import it changes a body and its clauses at
  once, so it is proved. It is allowed if `specs/laws/Constants.antt` of its crate states its
  number;
- in crates.txt a dependency that is neither a crate above it nor in the lines `# kit:` there. No
  clause excludes a side effect, such as a call of `libc::write`;
- a name in a `ghost use` that its file does not use, and a dependency in crates.txt that its crate
  does not name.
"""

import re
import sys
from collections import defaultdict
from pathlib import Path

TOP = Path(__file__).resolve().parent.parent
COMMENT = re.compile(r"//.*|^\s*--.*", re.M)
# An import of Rattle, and one of a specification, which ends with a brace or the line.
IMPORTS = {
    ".rt": re.compile(r"^\s*(?:pub(?:\(.*?\))? )?(?:ghost )?use ([^;]*);", re.M),
    ".antt": re.compile(r"^use ([^{\n]*(?:\{[^}]*\})?.*)", re.M),
}
# In the laws about constants: the name of a module of constants, and a constant with its number.
CONSTANTS = re.compile(r"^use Rattle\.([\w.]+)\.TheConstants as (\w+)", re.M)
NUMBER = re.compile(r"\b(\w+)\.(\w+) ≡ \d")
# The names that an import of specifications takes from one module.
GHOST_USE = re.compile(r"ghost use [^;{]*\{([^}]*)\};")
# The name of an item or a definition, and the name of a variant, which is indented.
DECLARED = re.compile(
    r"^(?:(?:pub(?:\(.*?\))?|abbrev|record|data|unsafe|extern \"C\"|const|static|fn|struct|enum"
    r"|union|trait|type) )+(\w+)", re.M
)
VARIANT = re.compile(r"^    ([A-Z]\w*)(?=,| \{|\()", re.M)
# An item of a module: its visibility, its kind and its name.
ITEM = re.compile(
    r"^(pub )?(?:pub\(\w+\) )?(?:unsafe )?(const|static|fn|struct|enum|trait|type) (\w+)", re.M
)


def source_files(crate):
    """Yields the texts of a crate's code and specifications, without comments, by path."""
    for path in sorted((TOP / "crates" / crate).rglob("*")):
        parts = path.relative_to(TOP / "crates" / crate).parts
        if path.suffix in IMPORTS and parts[0] in ("src", "specs"):
            yield path, COMMENT.sub("", path.read_text(encoding="utf-8"))


def imports_of(path, text, crate, used):
    """Yields for each imported item the crate that has it, its name, and the name that it is given
    or ''. A module is not an item."""
    for statement in IMPORTS[path.suffix].findall(text):
        first = re.split(r"::|\.", statement.removeprefix("Rattle."))[0]
        is_module = "{" not in statement and "." in statement
        for part in [] if is_module else re.split(r"[,{}]", statement):
            name, _, given = part.strip().partition(" as ")
            yield first if first in used else crate, re.split(r"::|\.", name)[-1], given


def renamed(crates):
    """Yields the imports that give an item the name of an item of any crate, or of a variant or an
    imported item of its crate."""
    names, found = defaultdict(set), []
    items, modules = set(), {"self", "ghosts"}
    for crate, used in crates.items():
        for path, text in source_files(crate):
            modules |= {path.stem} if path.suffix == ".rt" else set()
            items.update(DECLARED.findall(text))
            names[crate].update(VARIANT.findall(text))
            for other, name, given in imports_of(path, text, crate, {*used, "std"}):
                names[other].add(name)
                found.append((path.relative_to(TOP), other, name, given))
    for path, crate, name, given in found:
        if given in (items | names[crate]) - {"", "_", name} and name not in modules:
            yield f"{path}: gives {name} of {crate} the name of another item, {given}"


def stated(crate):
    """Returns the module and the name of each constant whose number a law of the crate states."""
    path = TOP / "crates" / crate / "specs/laws/Constants.antt"
    text = COMMENT.sub("", path.read_text(encoding="utf-8")) if path.exists() else ""
    modules = {alias: of.replace("specs.declared.", "") for of, alias in CONSTANTS.findall(text)}
    return {(modules.get(alias), name) for alias, name in NUMBER.findall(text)}


def shadowing(crates):
    """Yields the constants with the name of a public item of another module of their crate, or of a
    crate that it uses, unless a law states their number."""
    public, constants = defaultdict(set), []
    for crate in crates:
        for path, text in source_files(crate):
            parts = path.relative_to(TOP / "crates" / crate).with_suffix("").parts
            module = ".".join([crate, *(it for it in parts[1:] if it not in ("lib", "mod"))])
            for is_public, kind, name in ITEM.findall(text) if parts[0] == "src" else ():
                public[crate].update({name} if is_public else ())
                if kind in ("const", "static"):
                    constants.append((crate, module, name, is_public))
    for crate, module, name, is_public in constants:
        others = set().union(*(public[it] for it in [*crates[crate], *[crate] * (not is_public)]))
        if name in others and (module, name) not in stated(crate):
            yield f"{module}: {name} is the name of a public item, and no law states its number"


def is_in(name, code):
    """Returns whether the name is in the code. In an operator, `◌` stands for each operand."""
    words = [re.escape(word) for word in name.split("◌") if word]
    return all(re.search(rf"(?<!\w){it}(?!\w)" if it[0].isalpha() else it, code) for it in words)


def unused(crates):
    """Yields the names in a `ghost use` that their file does not use, and the dependencies that no
    file of their crate names."""
    for crate, used in crates.items():
        for path, text in source_files(crate):
            code = IMPORTS[".rt"].sub("", text)
            for names in GHOST_USE.findall(text) if path.suffix == ".rt" else ():
                # A name, or what it is called here, precedes a comma or the brace.
                for name in re.findall(r"(\S+?)\s*(?:,|$)", names):
                    if not is_in(name, code):
                        yield f"{path.relative_to(TOP)}: nothing uses {name}"
        files = [it for it in (TOP / "crates" / crate).glob("*/**/*") if it.suffix in IMPORTS]
        text = COMMENT.sub("", "\n".join(it.read_text(encoding="utf-8") for it in files))
        yield from (f"crates.txt: {crate} does not name {it}" for it in used if not is_in(it, text))


def unlisted(crates, kit):
    """Yields the dependencies that are neither crates in lines above nor listed."""
    above = set(kit)
    for crate, used in crates.items():
        yield from (f"crates.txt: {crate} uses {it}" for it in used if it not in above)
        above.add(crate)


def main():
    text = (TOP / "crates.txt").read_text(encoding="utf-8")
    found = re.findall(r"^(\w+)[\w ]*:(.*)$", text, re.M)
    crates = {name: used.split() for name, used in found}
    kit = [name for line in re.findall(r"^# kit:(.*)$", text, re.M) for name in line.split()]
    wrong = [*renamed(crates), *shadowing(crates), *unused(crates), *unlisted(crates, kit)]
    print(*wrong, f"tests/imports.py: {len(wrong)} errors", sep="\n")
    return 1 if wrong else 0


if __name__ == "__main__":
    sys.exit(main())
