#!/usr/bin/env python3
"""Checks the text of the repository. Prints what is wrong; the exit status is 1 if anything is.

    tests/tidy.py                  all checks
    tests/tidy.py --links FOLDER   only the links of the pages in FOLDER, an unpacked release
"""

import os
import re
import subprocess
import sys
from datetime import date
from pathlib import Path

TOP = Path(__file__).resolve().parent.parent
CODE = {".rt", ".antt", ".py", ".sh", ".c", ".h"}
# Allowed number of consecutive equal lines of two files.
MOST_EQUAL = 20
# The pages of a release in which a path in code marks may be one of the sources.
ABOUT_SOURCES = {"CHANGELOG.md", "docs/ERASED.md", "docs/GLOSSARY.md", "docs/MIGRATING.md",
                 "docs/PROMISES.md"}
COLUMNS = 100
LINK = re.compile(r"\[[^\]]*\]\(([^)\s]+)\)")
# A path from the top of the repository, or from the page's folder, in code marks. NAME, CRATE and
# try_it are placeholders.
PATH = re.compile(r"`((?:bench|crates|docs|examples|include|tests|tools)/[\w./]+)`")
PLACEHOLDER = re.compile(r"NAME|CRATE|try_it")
# A change to the folder of a file by which CDPATH could lead into another folder.
BY_CDPATH = re.compile(r"""(?<!CDPATH='' )\bcd (?:-- )?"\$\(dirname""")
# The date of a version in CHANGELOG.md, and those of a manual page and of debian/changelog, as they
# are written there.
RELEASED = r"(?m)^## \[{}\] - (\d{{4}}-\d\d-\d\d)$"
MANUAL_DATE = ".Dd %B %-d, %Y"
DEBIAN_DATE = "%a, %d %b %Y 00:00:00 +0000"
# The line with the version in each file; the first match counts. CHANGELOG.md may begin with a
# heading [Unreleased], for the changes since that version.
VERSIONS = {
    "CHANGELOG.md": r"(?m)^## (?!\[Unreleased\])\[?([^\]\s]+)",
    "crates/sslist_lister/src/lib.rt": r'(?m)^pub const VERSION: &str = "([^"]*)";$',
    "crates/sock_diag_lines/src/lib.rt": r'(?m)^pub const VERSION: &str = "([^"]*)";$',
    "debian/changelog": r"^sockdiag \(([^)]*)\)",
    "examples/sockdump.c": r'(?m)^#define VERSION "([^"]*)"$',
    "include/sockdiag.h": r'(?m)^#define SOCKDIAG_VERSION "([^"]*)"$',
    "tools/erased/Cargo.toml": r'(?m)^version = "([^"]*)"$',
    "tools/erased/c/Cargo.toml": r'(?m)^version = "([^"]*)"$',
}

# The same for the oldest version of Rust that compiles the package.
RUST = r'(?m)^rust-version = "([^"]*)"$'
RUST_VERSIONS = {
    "tools/erased/Cargo.toml": RUST,
    "tools/erased/c/Cargo.toml": RUST,
    "debian/control": r"\brustc \(>= ([^)]*)\)",
    "docs/ERASED.md": r"(?m)^\| Rust \| Version (\S+) or later",
    "INSTALL.md": r"\brustc (\S+) or newer",
}


def repeated_code(files):
    """Yields the pairs of files with more than MOST_EQUAL consecutive lines in common, except blank
    lines and indentation. docs/DECISIONS.md lists the blocks that differ only in names."""
    seen, found = {}, set()
    for name, text in files.items():
        # Scripts have no suffix.
        if Path(name).suffix not in CODE | {".edit", ""}:
            continue
        numbered = [(number, line.strip()) for number, line in enumerate(text.splitlines(), 1)]
        lines = [pair for pair in numbered if pair[1]]
        for at in range(len(lines) - MOST_EQUAL):
            block = tuple(line for _, line in lines[at : at + MOST_EQUAL + 1])
            other, number = seen.setdefault(block, (name, lines[at][0]))
            if other != name and (other, name) not in found:
                found.add((other, name))
                yield f"{other}:{number}: more than {MOST_EQUAL} lines as at {name}:{lines[at][0]}"


def is_unbreakable(name, line):
    """Returns whether a line cannot be broken: a string literal, a row of a table, code or JSON of a
    page, or a crate and its dependencies."""
    if name.endswith(".md"):
        return line.startswith(("|", "    ", "{"))
    return line.strip().startswith(('"', "//! |", "/// |")) or (
        name == "crates.txt" and not line.startswith("#")
    )


def wide_lines(files):
    """Yields the lines with more than COLUMNS columns, of pages except for tables and code. Edits
    and pages of contracts, which quote code, and .toml files are not checked."""
    for name, text in files.items():
        if Path(name).suffix in {".edit", ".toml", ".svg"} or name.endswith("CALLING.md"):
            continue
        for number, line in enumerate(text.splitlines(), 1):
            if len(line) > COLUMNS and not is_unbreakable(name, line):
                yield f"{name}:{number}: {len(line)} columns"


def misled_scripts(files):
    """Yields the lines of shell scripts by which CDPATH could lead into another folder."""
    for name, text in files.items():
        if text.startswith("#!/bin/sh") and not re.search(r"(?m)^unset\b.* CDPATH\b", text):
            for number, line in enumerate(text.splitlines(), 1):
                if BY_CDPATH.search(line):
                    yield f"{name}:{number}: cd without CDPATH=''"


def unstartable(files):
    """Yields the scripts that are not executable."""
    for name, text in files.items():
        if text.startswith("#!/") and not os.access(TOP / name, os.X_OK):
            yield f"{name}: not executable"


def anchors(page):
    """Returns the anchors of the page's headings: lower case, hyphens for spaces, without
    punctuation."""
    heads = re.findall(r"^#+ (.*)$", page.read_text(encoding="utf-8"), re.MULTILINE)
    return {re.sub(r"[^\w\- ]", "", head.lower()).replace(" ", "-") for head in heads}


def is_broken(page, link):
    """Returns whether the target of a link is missing, a file or a heading. Links to the web are
    not checked."""
    if re.match(r"\w+:", link):
        return False
    path, _, anchor = link.partition("#")
    target = page.parent / path if path else page
    return not target.exists() or (anchor != "" and anchor not in anchors(target))


def broken_links(top, files):
    """Yields the broken links of the pages, and the paths in code marks that do not exist."""
    for name, text in files.items():
        if not name.endswith(".md"):
            continue
        page = top / name
        for link in LINK.findall(text):
            if is_broken(page, link):
                yield f"{name}: {link} does not exist"
        for path in PATH.findall(text):
            folders = [top, page.parent] + [TOP] * (name in ABOUT_SOURCES)
            exists = any((folder / path).exists() for folder in folders)
            if not exists and not PLACEHOLDER.search(path):
                yield f"{name}: {path} does not exist"


def wrong_versions(files):
    """Yields the files that have another version than VERSION, or another one of Rust."""
    version = (TOP / "VERSION").read_text(encoding="utf-8").strip()
    rust = re.search(RUST, files["tools/erased/Cargo.toml"])
    for patterns, expected in (VERSIONS, version), (RUST_VERSIONS, rust and rust[1]):
        for name, pattern in patterns.items():
            found = re.search(pattern, files[name])
            if not found or found[1] != expected:
                yield f"{name}: {found[1] if found else 'no version'}, expected {expected}"


def wrong_dates(files):
    """Yields the manual pages, and debian/changelog, if they have another date than the version has
    in CHANGELOG.md."""
    version = (TOP / "VERSION").read_text(encoding="utf-8").strip()
    found = re.search(RELEASED.format(re.escape(version)), files["CHANGELOG.md"])
    if not found:
        yield f"CHANGELOG.md: no date of {version}"
        return
    day = date.fromisoformat(found[1])
    last = re.search(r"(?m)^ -- .*>  (.*)$", files["debian/changelog"])
    if not last or last[1] != day.strftime(DEBIAN_DATE):
        yield f"debian/changelog: the date {last and last[1]}, expected {day}"
    expected = day.strftime(MANUAL_DATE)
    for page in sorted((TOP / "man").iterdir()):
        line = page.read_text("utf-8").partition("\n")[0]
        if line != expected:
            yield f"man/{page.name}: {line}, expected {expected}"


def wrong_licences(files):
    """Yields the licences whose text, from the permission on, is not in debian/copyright."""
    copied = " ".join(re.sub(r"(?m)^ \.$", "", files["debian/copyright"]).split())
    for path in sorted(TOP.glob("LICENSE-*")):
        text = path.read_text("utf-8")
        if " ".join(text[text.index("Permission") :].split()) not in copied:
            yield f"debian/copyright: not the text of {path.name}"


def edited_files(crate, edit, files):
    """Returns the texts of the files of a crate that an edit changes, by name, and why the edit
    cannot be applied, or "": each `old:` text has to occur once in its file."""
    path, old, changed = "", "", {"": ""}
    for word, rest in re.findall(r"(?m)^(file|old|new): ?(.*)$", edit):
        if word == "file":
            path = f"crates/{crate}/{rest}"
            changed.setdefault(path, files.get(path, ""))
        elif word == "old":
            old = rest
        elif old and changed[path].count(old) == 1:
            changed[path] = changed[path].replace(old, rest)
        else:
            return {}, f"occurs {changed[path].count(old)} times in {path}: {old}"
    del changed[""]
    if all(files.get(path, "") == text for path, text in changed.items()):
        return {}, "changes nothing"
    return changed, ""


def unusable_edits(files):
    """Yields the edits that cannot be applied."""
    for name, text in files.items():
        crate = re.match(r"(?:tests/edits/(\w+)|crates/(\w+)/must-fail)/[^/]+\.edit$", name)
        wrong = crate and edited_files(crate[1] or crate[2], text, files)[1]
        if wrong:
            yield f"{name}: {wrong}"


def text_files():
    """Returns the texts of code, pages, edits and scripts by name. Files that git ignores and the
    data of tests are left out."""
    listed = subprocess.run(
        ["git", "ls-files", "--cached", "--others", "--exclude-standard"],
        cwd=TOP, stdout=subprocess.PIPE, text=True, check=True,
    ).stdout.splitlines()
    suffixes = CODE | {".md", ".edit", ".rs", ".toml", ".in"}
    scripts = (".ci/", "debian/", "tools/", "examples/")
    others = {"sockdiag", "sslist", "crates.txt", "LOGIC"}
    names = [
        name for name in sorted(listed)
        if Path(name).suffix in suffixes or name.startswith(scripts) or name in others
    ]
    names = [name for name in names if not name.endswith(".pcap")]
    return {name: (TOP / name).read_text("utf-8") for name in names if (TOP / name).is_file()}


def main():
    if sys.argv[1:2] == ["--links"]:
        top = Path(sys.argv[2])
        pages = {str(page.relative_to(top)): page.read_text("utf-8") for page in top.rglob("*.md")}
        wrong = list(broken_links(top, pages))
    else:
        files = text_files()
        wrong = [*repeated_code(files), *wide_lines(files), *misled_scripts(files),
                 *unstartable(files), *broken_links(TOP, files), *wrong_versions(files),
                 *wrong_dates(files), *wrong_licences(files), *unusable_edits(files)]
    print(*wrong, f"tests/tidy.py: {len(wrong)} errors", sep="\n")
    return 1 if wrong else 0


if __name__ == "__main__":
    sys.exit(main())
