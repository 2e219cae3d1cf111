#!/usr/bin/env python3
"""tests/tables.py [SSLIST]: compares the tables and lists of the pages with the code, the header and
the program at this path. Without it the members of JSON are not compared.

- man/sockdiag.3: the functions of the header, and the decode errors with their codes and texts.
- include/sockdiag.h: the calls and structs that its comments name, and the functions of laws.rt
  that the first one names, exist.
- man/sslist.1, man/sockdiag.1, man/sockdump.1 and man/socklist.1: each diagnostic is in the
  sources. Of the first two, tools/usage writes --help from the options; those of the other two are
  in --help and in the sources.
- man/sslist-json.5: the members of each list are those that the program prints for replies with
  each attribute; those of `info` are in the same order.
- docs/LINES.md: the names and the decode errors.
- docs/pictures: the bytes of a reply and its canonical form are a stored line of `sockdiag` and its
  answer, numbers and addresses are those of their bytes, and bars those of docs/SPEED.md.
- INSTALL.md: the files of a release, and the installed files.
- LICENSES.md: the kit's crates that crates.txt allows, and those whose names are in the symbols of
  a built program; and the copyright notices in the kit's licence files (skipped without a kit).
- groff prints no warning about a manual page (skipped without groff).

Prints what differs. The exit status is 1 if anything does.
"""

import json
import re
import shutil
import subprocess
import sys
from pathlib import Path

sys.dont_write_bytecode = True
import runs

TOP = Path(__file__).resolve().parent.parent
HEADER = (TOP / "include/sockdiag.h").read_text(encoding="utf-8")
LIBRARY_PAGE = (TOP / "man/sockdiag.3").read_text(encoding="utf-8")
# The length of the header of a reply about a socket of each family.
HEADERS = {1: 16, 2: 72, 10: 72, 16: 28, 17: 16, 40: 32, 44: 16}
# The lengths of values of attributes: each kind is decoded with one of them.
LENGTHS = (1, 2, 4, 5, 8, 12, 16, 20, 24, 28, 32, 36, 40, 44, 128, 400)
KINDS = range(40)
# The kit's crates that those of the lines `# kit:` in crates.txt need.
BELOW = """core io libc os std std_alloc std_collections std_heap std_io ucd_derived
    ucd_table""".split()
# The headings of the lists of members in man/sslist-json.5 for the other families than UNIX, IPv4
# and IPv6. They have all members of the objects too.
OTHERS = {16: "Netlink sockets", 17: "Packet sockets", 40: "Vsock sockets", 44: "XDP sockets"}


def section(page, heading):
    """Returns the text below a heading of a page, up to the next heading."""
    text = (TOP / page).read_text(encoding="utf-8")
    return re.split(r"(?m)^#+ ", text.partition(f"# {heading}\n")[2])[0]


def rows(text, title=""):
    """Returns the cells of each row of the tables in a text, or of the table with this title of the
    first column."""
    tables = re.findall(r"(?m)(?:^\|.*$\n?)+", text)
    lines = [line for it in tables if it.startswith(f"| {title}") for line in it.splitlines()]
    return [[it.strip() for it in re.split(r"(?<!\\)\|", line)[1:-1]] for line in lines]


def spans(text):
    """Returns the texts in code marks."""
    return re.findall(r"`([^`]+)`", re.sub(r"(?ms)^```.*?^```$", "", text))


def first_column(page, heading):
    """Returns the texts in code marks in the first column of the tables below a heading."""
    return [it for row in rows(section(page, heading)) for it in spans(row[0])]


def differences(name, found, expected):
    """Yields what a table has and should not have, and what it lacks."""
    yield from ((name, f"unexpected {it}") for it in found if it not in expected)
    yield from ((name, f"{it} is missing") for it in expected if it not in found)


def options(program):
    """Returns the options in the manual page, where .Fl writes the first hyphen."""
    page = (TOP / f"man/{program}.1").read_text(encoding="utf-8")
    items = re.findall(r"(?m)^\.It Fl (.*)$", page)
    return [f"-{it}" for names in items for it in names.split(" , ")]


def diagnostics(program):
    """Returns the texts in the lists of the section DIAGNOSTICS of the manual page."""
    page = (TOP / f"man/{program}.1").read_text(encoding="utf-8")
    shown = re.split(r"(?m)^\.Sh ", page.partition("\n.Sh DIAGNOSTICS\n")[2])[0]
    return re.findall(r"(?m)^\.It (.*)$", shown)


def manual_section(page, heading):
    """Returns the text below a heading of a manual page, up to the next heading."""
    text = (TOP / page).read_text(encoding="utf-8")
    return re.split(r"(?m)^\.S[hs] ", re.split(rf"(?m)^\.S[hs] {heading}$", text)[1])[0]


def members_of(text):
    """Returns the members of JSON in the tags of the lists in a text of a manual page, and those in
    the tags of lists within these lists."""
    depth, found = 0, {1: [], 2: []}
    for line in text.splitlines():
        depth += line.startswith(".Bl ") - line.startswith(".El")
        if line.startswith(".It Cm "):
            found[depth] += line.removeprefix(".It Cm ").split(" , ")
    return found[1], found[2]


def functions():
    """Returns the functions in the synopsis, and those that the header declares or defines, without
    those that inline functions call. A macro without parameters is the function that it calls."""
    synopsis = LIBRARY_PAGE.partition(".Sh SYNOPSIS")[2].partition(".Sh DESCRIPTION")[0]
    text = re.sub(r"\s+", " ", re.sub(r"(?m)^\..*$", "", synopsis)).replace("( ", "(")
    start = r"(?m)^(?:static inline )?((?:const )?\w+ \*?sockdiag_\w+\([^;{]*\))(?:;|\n\{)"
    found = [re.sub(r"\s+", " ", it).replace("( ", "(") for it in re.findall(start, HEADER)]
    prototypes = [it for it in found if "_fill_" not in it]
    for macro, called in re.findall(r"(?m)^#define (sockdiag_\w+)\(\) (sockdiag_\w+)\(", HEADER):
        index, found = next(it for it in enumerate(prototypes) if f" {called}(" in it[1])
        prototypes.insert(index + 1, f"{found.partition(' ')[0]} {macro}(void)")
    return [it.strip() for it in text.split(";") if it.strip()], prototypes


def decode_errors():
    """Returns the code, the name and the text of each decode error in the page and the header."""
    codes = dict(re.findall(r"(?m)^    (SOCKDIAG_\w+) = (\d+),?", HEADER))
    texts = re.findall(r'case (\w+):\s*return "([^"]*)"', HEADER)
    return (re.findall(r"(?m)^\.It (\d+) Dv (\w+)\n(.*)$", LIBRARY_PAGE),
            [(codes[name], name, text) for name, text in texts if name in codes])


def replies():
    """Yields the packet of a reply for each family, with each attribute of each length."""
    for family, length in HEADERS.items():
        header = bytes([family]).ljust(length, b"\0")
        for kind in KINDS:
            for size in LENGTHS:
                attribute = (4 + size).to_bytes(2, "little") + bytes([kind, 0]) + bytes(size)
                yield runs.packet(header + attribute + bytes(-size % 4))


def printed_members(sslist):
    """Returns the members of the objects for each family, the members of the objects in these
    except `meminfo`, and the members of the longest `info` in order."""
    capture = runs.CAPTURE.read_bytes()
    given = capture[:24] + b"".join(replies()) + capture[24:]
    done = subprocess.run([sslist, "--json"], input=given, stdout=subprocess.PIPE, check=True,
                          stderr=subprocess.DEVNULL)
    members, inner, info = {}, {}, []
    for line in done.stdout.splitlines():
        socket = json.loads(line)
        family = socket["family"]
        members.setdefault(family, {}).update(socket)
        for name, value in socket.items():
            records = value if isinstance(value, list) else [value]
            for record in records if name not in ("meminfo", "other_attributes") else []:
                if isinstance(record, dict):
                    inner.setdefault(family, {}).update(record)
        if family == 2:
            info = max(info, list(socket.get("info", {})), key=len)
    return members, inner, info


def mptcp_members(sslist):
    """Returns the members of `info` of an MPTCP socket in order."""
    request = runs.packet([2, 6, *bytes(54), 8, 0, 3, 0, 6, 1, 0, 0], 0x301)
    reply = runs.packet(bytes([2, *bytes(71)]) + runs.attribute(2, bytes(96)))
    given = runs.CAPTURE.read_bytes()[:24] + request + reply
    done = subprocess.run([sslist, "--json"], input=given, stdout=subprocess.PIPE, check=True)
    return list(json.loads(done.stdout)["info"])


def json_errors(sslist):
    page = "man/sslist-json.5"
    members, inner, info = printed_members(sslist)
    for heading, names in (
        ("UNIX sockets", members[1]), ("IPv4 and IPv6 sockets", members[2] | members[10]),
    ):
        found, _ = members_of(manual_section(page, heading))
        yield from differences(page, found, names)
    for heading, names in (
        ("Members of info", info), ("Members of info of MPTCP sockets", mptcp_members(sslist)),
    ):
        found, _ = members_of(manual_section(page, heading))
        yield from differences(page, found, names)
        if found != names:
            yield page, f"{heading}: another order"
        if f"These {len(names)} numbers" not in manual_section(page, heading):
            yield page, f"{heading}: there are {len(names)} numbers"
    text = (TOP / page).read_text(encoding="utf-8")
    named = [it for found in members_of(text) for it in found]
    for names in inner.values():
        yield from ((page, f"{it} is missing") for it in names if it not in named)
    for family, heading in OTHERS.items():
        found, within = members_of(manual_section(page, heading))
        yield from differences(page, found, members[family])
        yield from differences(page, within, inner.get(family, {}))
    source = "".join(it.read_text("utf-8") for it in TOP.glob("crates/sslist*/src/**/*.rt"))
    others = {*re.findall(r"(?m)^\.Cm (\w+)", text)} - {"true", "false"}
    yield from ((page, f"no source has {it}") for it in others if f'"{it}"' not in source)
    form = r"(?m)^\.It Cm (\w+info)$\n(?:.*\n)?\.Pq Dv \w+_DIAG_(\w+)"
    yield from ((page, f"{it} is not of {name}") for it, name in re.findall(form, text)
                if it.upper() != name)


def diagnostic_errors(program):
    """Looks for each diagnostic in the manual page of a program in the string literals of the
    program and its libraries: as the whole text, or each part of it between numbers and options
    with a value."""
    page = f"man/{program}.1"
    words = [TOP / "tools/libraries", program]
    used = subprocess.run(words, stdout=subprocess.PIPE, text=True, check=True).stdout.split()
    crates = [program, *used]
    files = [path for crate in crates for path in TOP.glob(f"crates/{crate}/src/**/*.rt")]
    files += [*TOP.glob(f"examples/{program}*.[ch]"), TOP / "examples/kernel.h"]
    literals = re.findall(r'"([^"\n]*)"', "\n".join(it.read_text("utf-8") for it in files))
    texts = [it.removeprefix("sslist: ") for it in literals if re.search(r"\w\w .*\{", it)]
    forms = [re.sub(r"\\{\w*\\}", ".+", re.escape(it)) for it in texts]
    items = diagnostics(program)
    if not items:
        yield page, "no diagnostics"
    for item in items:
        parts = [it.strip(" :;,") for it in re.split(r"--\w+=|\b(?:[A-Z]|\d+)\b|\.\.", item)]
        is_whole = any(re.fullmatch(form, item) for form in forms)
        if not is_whole and not all(any(it in text for text in literals) for it in parts):
            yield page, f"no source has the text {item}"


def option_errors(program):
    """Compares the options in the manual page of a program in C with its usage and its source. It
    passes those of sslist on."""
    page = (TOP / f"man/{program}.1").read_text("utf-8")
    files = TOP.glob(f"examples/{program}*.[ch]")
    source = "".join(it.read_text("utf-8") for it in files)
    usage = re.search(r'(?s) usage\[\] =(.*?)";\n', source)[1]
    shown = {*re.findall(r"(?<![\w-])--?\w+", usage)}
    known = {it.partition("=")[0] for it in options("sslist")}
    read = {f"--{it}" for it in re.findall(r'"(?:--)?(\w+)=?"', source)} | known
    for row in re.findall(r"(?m)^\.It Fl (.*)$", page):
        names = {f"-{it}" for it in re.findall(r"(?:^|, (?:Fl )?)(-?\w+)", row)}
        known |= names
        if not names & shown:
            yield f"man/{program}.1", f"the usage lacks {row}"
        yield from ((f"man/{program}.1", f"no source has the option {it}") for it in names - read
                    if it[1] == "-")
    yield from ((f"man/{program}.1", f"the option {it} is missing") for it in shown - known)
    yield from ((f"man/{program}.1", f"no source has the option -{it}")
                for it in re.findall(r"(?m)^\.Fl (-\w+)", page) if f"-{it}" not in read)


def line_errors():
    page = "docs/LINES.md"
    usage = (TOP / "tests/help/sockdiag").read_text(encoding="utf-8")
    names = re.findall(r"(?!and\b)\b\w+", usage.partition("Names: ")[2].partition(", which")[0])
    names_shown = [spans(row[0]) for row in rows(section(page, "Lines and answers"), "name ")]
    yield from differences(page, [it for found in names_shown for it in found], names)
    manual = (TOP / "man/sockdiag.1").read_text(encoding="utf-8")
    listed = re.findall(r"(?m)^\.It (.*)$", manual.partition("names are:")[2].partition(".El")[0])
    yield from differences("man/sockdiag.1", " , ".join(listed).split(" , "), names)
    positions = [spot for row in rows(section(page, "Lines and answers"), "position")[2:]
                 for spot in row[0].split(", ")]
    if positions != [str(number) for number in range(1, len(positions) + 1)]:
        yield page, f"positions: {positions}"
    stored = (TOP / "crates/sockdiag/stdin").read_text(encoding="utf-8").splitlines()
    yield from (("tests/help/sockdiag", f"not in crates/sockdiag/stdin: {line}")
                for line in re.findall(r"(?m)^    (\w+ .*)$", usage) if line not in stored)
    source = (TOP / "crates/netlink_core/src/error.rt").read_text(encoding="utf-8")
    enum = re.search(r"(?ms)^pub enum DecodeError \{\n(.*?)^\}", source)[1]
    variants = re.findall(r"(?ms)^    (\w+)(?: \{\n(.*?)^    \})?,$", enum)
    expected = [(str(code), name, re.findall(r"(?m)^ +(\w+):", fields))
                for code, (name, fields) in enumerate(variants, 1)]
    shown = rows(section(page, "Decode errors"), "code ")[2:]
    found = [(row[0], spans(row[1])[0], spans(row[2])) for row in shown]
    yield from differences(page, found, expected)


def picture_errors():
    """Compares the pictures with the stored lines of `sockdiag`, and with the tables of SPEED.md."""
    stored = [(TOP / f"crates/sockdiag/{it}").read_text("utf-8") for it in ("stdin", "stdout")]
    answers = dict(zip(*(it.splitlines() for it in stored)))
    pictures = {it.stem: it.read_text("utf-8") for it in TOP.glob("docs/pictures/*.svg")}
    shown = re.findall(r"echo '(.*)' \| \./sockdiag(?:</text>)?\n(?:<text.*>)?(\w+ \w+)",
                       pictures["first-run"]) or [("", "first-run.svg")]
    for name, kind in ("unix-reply", "unix"), ("tcp-reply", "inet"):
        fields = re.findall(r'middle ink strong"[^>]*>(.*)</text>\n<.*>.*</text>'
                            r'(?:\n<.* dim"[^>]*>([\d.]+)\b)?', pictures[name])
        line, answer = ("".join(it.split(" → ")[at] for it, _ in fields) for at in (0, -1))
        shown.append((f"{kind} {line.replace(' ', '')}", f"ok {answer.replace(' ', '')}"))
        for digits, value in fields:
            read = bytes.fromhex(digits.split("→")[-1])
            numbers = [str(int.from_bytes(read, order)) for order in ("little", "big")]
            if value and value not in (*numbers, ".".join(map(str, read))):
                yield f"docs/pictures/{name}.svg", f"the bytes {digits} are not {value}"
    yield from (("docs/pictures", f"not a stored line and its answer: {line}, {answer}")
                for line, answer in shown if answers.get(line) != answer)
    tables = rows((TOP / "docs/SPEED.md").read_text("utf-8").replace("`", ""))
    lines = {", ".join(row[:length]) for row in tables for length in (2, 3)}
    bar = r'end">(.*)</text>\n<rect.* width="(.*?)".*\n.*\n<text.*>(.*)</text>'
    for label, width, ratio in re.findall(bar, pictures["speed"]) or [("no bars", "0", "0")]:
        if f"{label}, {ratio}" not in lines or abs(float(width) / 198 - float(ratio[:4])) > 0.01:
            yield "docs/pictures/speed.svg", f"docs/SPEED.md lacks {label}, {ratio}, width {width}"


def file_errors():
    """Compares the installed files, and the Debian packages, with tests/release.txt."""
    listed = (TOP / "tests/release.txt").read_text(encoding="utf-8")
    page = "INSTALL.md"
    packages = re.findall(r"(?m)^== (\S+)_VERSION_\w+\.deb$", listed)
    yield from differences(page, first_column(page, "Debian packages"), packages)
    installed = listed.partition("== tools/install, prefix\n")[2]
    paths = first_column(page, "Install the C library and the programs")
    for path in paths:
        if f" ./{path}" not in installed:
            yield page, f"tools/install does not install {path}"
    if not paths:
        yield page, "no table of installed files"


def licence_errors():
    """Compares the kit's crates in LICENSES.md with crates.txt, and with the licence files of the
    kit: each copyright notice and each licence is in the crate's row."""
    page, heading = "LICENSES.md", "Crates of the kit"
    text = (TOP / "crates.txt").read_text(encoding="utf-8")
    allowed = " ".join(re.findall(r"(?m)^# kit:(.*)$", text)).split()
    yield from differences(page, first_column(page, heading), [*allowed, *BELOW])
    mit = (TOP / "LICENSE-MIT").read_text(encoding="utf-8").partition("Permission")[2].split()
    kit = Path(shutil.which("rt") or "rt").resolve().parents[1] / "rattle"
    for crates, notice, licence in rows(section(page, heading), "crates ")[2:]:
        for crate in spans(crates) if kit.is_dir() else []:
            texts = {it.name: it.read_text(encoding="utf-8") for it in kit.glob(f"{crate}/LICENSE*")
                     if it.name != "LICENSE-APACHE"}
            found = {"MIT" if it.partition("Permission")[2].split() == mit else name
                     for name, it in texts.items()}
            if found != set(re.findall(r"MIT|LICENSE-\w+", licence)):
                yield page, f"{crate}: the kit has the licences {sorted(found)}"
            for line in re.findall(r"(?m)^Copyright [(©].*$", "\n".join(texts.values())):
                if line not in notice and "LICENSE-UNICODE" not in licence:
                    yield page, f"{crate}: the kit has {line}"


def linked_errors(program):
    """Looks for the crates that the symbols of a built program name in LICENSES.md."""
    if not shutil.which("nm"):
        return
    words = ["nm", "--format=just-symbols", program]
    symbols = subprocess.run(words, stdout=subprocess.PIPE, text=True, check=True).stdout
    own = re.findall(r"(?m)^(\w+)[\w ]*:", (TOP / "crates.txt").read_text(encoding="utf-8"))
    listed = {*own, *first_column("LICENSES.md", "Crates of the kit")}
    for crate in sorted(set(re.findall(r"(?m)^([a-z]\w*)::", symbols)) - listed):
        yield "LICENSES.md", f"{crate}, which is linked into {program}, is missing"


def library_errors():
    page = "man/sockdiag.3"
    for found, expected in (functions(), decode_errors()):
        yield from differences(page, found, expected)


def comment_errors():
    """Looks for the names in the comments of the header. A name with four or more underscores in
    the first comment is that of a function of laws.rt, and this comment has all of them."""
    comments = re.findall(r"(?s)/\*.*?\*/", HEADER)
    laws = (TOP / "crates/sockdiag_c/src/laws.rt").read_text(encoding="utf-8")
    theorems = set(re.findall(r"(?m)^pub fn (\w+)", laws))
    declared = {*re.findall(r"\w+", re.sub(r"(?s)/\*.*?\*/", "", HEADER)), "sockdiag_c"}
    named = set(re.findall(r"\bsockdiag_\w+", " ".join(comments))) - declared
    named |= theorems ^ set(re.findall(r"\b(?!sockdiag_)[a-z]+(?:_[a-z]+){4,}\b", comments[0]))
    yield from (("include/sockdiag.h", f"{it} is not both declared and named") for it in named)


def warnings():
    """Yields the warnings of groff about the manual pages."""
    for path in sorted((TOP / "man").iterdir()) if shutil.which("groff") else []:
        words = ["groff", "-ww", "-mandoc", "-Tutf8", "-z", path]
        ended = subprocess.run(words, stderr=subprocess.PIPE, text=True, check=False)
        yield from (("groff", line) for line in ended.stderr.splitlines())


def main():
    wrong = [*library_errors(), *comment_errors(), *licence_errors(), *line_errors(),
             *picture_errors(), *file_errors(), *warnings()]
    for program in ("sslist", "sockdiag", "sockdump", "socklist"):
        wrong += diagnostic_errors(program)
    for program in ("sockdump", "socklist"):
        wrong += option_errors(program)
    for sslist in sys.argv[1:]:
        wrong += [*json_errors(sslist), *linked_errors(sslist)]
    print(*(f"{page}: {text}" for page, text in wrong), sep="\n", end="\n" * bool(wrong))
    print(f"tests/tables.py: {len(wrong)} errors")
    return 1 if wrong else 0


if __name__ == "__main__":
    sys.exit(main())
