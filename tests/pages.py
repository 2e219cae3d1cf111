#!/usr/bin/env python3
"""tests/pages.py [SOCKDIAG SSLIST]: checks the code blocks of the pages and of the manual pages, and
the commands in the text of the pages. The arguments are the paths of both built programs. Without
them only copies of code and commands in the text are checked.

- Copies of code. A `rust` block has to occur, as consecutive whole lines, in a file under
  crates/*/src, or in an example or a test of the package in tools/erased, an `antt` block in one
  under crates/*/proofs or crates/*/specs, a `c` block in an example, and a `rust,ignore` block in
  an example under bench/original. Indentation and blank lines are ignored. In a README.md a block
  may omit the contracts. A `text` block in a CALLING.md quotes contracts below a line that names
  the file. Each quoted line has to occur in that file, in the notation of these pages.
- Shell commands of the words RUN are run in a folder with what the page assumes: the programs, the
  stored capture as FILE, a library whose functions return 0. Each has to end with status 0. If a
  command follows `$ `, standard output has to be the lines that follow it.
- The files and the options of our programs and scripts exist in all commands, also in the text.
- FORMS lists the other forms of blocks, such as input and answers of `sockdiag`, and how each is
  checked. A block of another form is an error.

Prints each error with its page and line, each command that is skipped since its tool is not
installed, and the numbers of commands and blocks. The exit status is 1 if there is an error.
"""

import hashlib
import os
import re
import shlex
import shutil
import subprocess
import sys
import tarfile
import tempfile
from collections import Counter
from functools import cache
from pathlib import Path

sys.dont_write_bytecode = True
import tables
import tidy

TOP = tidy.TOP
DOCUMENTS = ["*.md", "crates/*.md", "crates/*/*.md", "docs/*.md"]
# The files that a block of each language may be a copy of.
SOURCES = {
    "rust": ["crates/*/src/**/*.rt", "tools/erased/examples/*.rs", "tools/erased/tests/*.rs"],
    "rust,ignore": ["bench/original/examples/*.rs"],
    "antt": ["crates/*/proofs/**/*.antt", "crates/*/specs/**/*.antt"],
    "c": ["examples/*.[ch]"],
}
FENCE = "```"
# The language of a block that is indented and has no fence.
INDENTED = "indented"
PROGRAMS = ("sockdiag", "sslist")
RELEASE = "sockdiag-VERSION-x86_64-linux"
# The language of a block of a manual page.
MANUAL = "man"
PROMPT = "$ "
# The commands that are run, and words that begin a command of the shell.
RUN = set("""./sockdiag ./sockdump ./sslist bin/sockdiag bin/sslist sockdiag sslist
    sockdump examples/sockdump socklist ./socklist examples/socklist tests/believed.py tools/install
    awk cc cd cp done echo export for grep head jq make mkdir pkg-config printf
    python3 sed sha256sum sort tar uniq""".split())
# Those of them that need a compiler, and those that are never missing.
IN_C = ("sockdump", "socklist")
COMPILING = {"cc", "make", "pkg-config",
             *(it + name for it in ("", "./", "examples/") for name in IN_C)}
BUILTIN = {"cd", "done", "echo", "export", "for", "printf", *PROGRAMS}
# Commands of these words that are not run: they do not end, need root, or need a built library.
NOT_RUN = re.compile(r".*(sockdump --(events|netns)|socklist -[EK]|fuzz_c|BUILT=|-static-pie)")
# The first names of input lines of `sockdiag`.
NAMES = "unixreq|unix|unixview|inetreq|inet|sockid4|sockid6|message|netlink|dump"
ANSWER = re.compile(r"(ok|refused|unwritable|bad line)\b")
# What sockdump and sslist report if the kernel does not answer, or changes its answer meanwhile.
KERNEL = re.compile(r"sockdump: socket: |dump interrupted")
# A path in the repository.
PATH = re.compile(r"(?:\./)?"
    r"((?:\.ci|bench|crates|docs|examples|include|tests|tools)/[\w./*-]+)")
# A command in the text of a page.
INLINE = re.compile(r"(\./|\.ci/|bench/|bin/|examples/|tests/|tools/|python3 |rt |make |cargo "
    r"|sslist |sockdiag )")


def files(patterns):
    return sorted(path for pattern in patterns for path in TOP.glob(pattern))


def bare_lines(text):
    """Returns the lines that are not blank, without leading and trailing blanks."""
    return [line.strip() for line in text.splitlines() if line.strip()]


def without_contracts(text):
    """Returns the code without clauses, tactic attributes and imports of definitions."""
    kept, depth = [], 0
    for line in text.splitlines():
        bare = line.strip()
        if depth > 0 or re.match(r"(requires|ensures)\b", bare):
            depth += line.count("{") - line.count("}")
        elif not bare.startswith(("ghost use ", "#[tactic")):
            kept.append(line)
    return re.sub(r"\n\{\n", " {\n", "\n".join(kept))


def blocks(document):
    """Yields the line number, the language and the lines of each code block, without its
    indentation."""
    opened, before = None, ""
    for number, line in enumerate(document.read_text(encoding="utf-8").splitlines(), 1):
        mark = line.strip()
        if opened and opened[1] == INDENTED and mark and not line.startswith("    "):
            yield opened
            opened = None
        if opened and not mark.startswith(FENCE):
            opened[2].append(line.removeprefix("    ") if opened[1] == INDENTED else line)
        elif opened:
            yield opened
            opened = None
        elif mark.startswith(FENCE):
            opened = (number, mark.removeprefix(FENCE).strip(), [])
        elif line.startswith("    ") and (not before or before.startswith(("#", FENCE))):
            opened = (number, INDENTED, [line.removeprefix("    ")])
        elif re.match(r"~~~|<pre|\t", line):
            sys.exit(f"{document}:{number}: unknown form of code block")
        before = mark
    if opened and opened[1] != INDENTED:
        sys.exit(f"{document}:{opened[0]}: code block is not closed")
    if opened:
        yield opened


def occurs_in(block, source):
    """Returns whether the lines of the block occur in the source as consecutive lines."""
    return any(source[at : at + len(block)] == block for at in range(len(source) - len(block) + 1))


def shortened(source):
    """Returns the source as one line without comments, in the notation of the pages: S for *self,
    and S' for *self at the return."""
    code = re.sub(r"(^|\s)//.*", " ", source, flags=re.MULTILINE)
    code = re.sub(r"\s+", " ", code).replace("( ", "(").replace(" )", ")").replace(",)", ")")
    return re.sub(r"\bself\.(now|old)\b", "S", re.sub(r"\bself\.new\b", "S'", code))


def written_out(line):
    """Returns a quoted line in the form of the shortened source, or the part of it that has to
    occur there."""
    clause = re.fullmatch(r"(requires|ensures)( \w+)?: (.*)", line)
    if clause:
        return f"{clause[1]}{clause[2] or ''} {{ {clause[3]} }}"
    member = re.fullmatch(r"ghost (\w+)(:| =) (.*)", line)
    if member:
        return f"ghost {member[1]}{member[2]} {{ {member[3]} }}"
    return re.sub(r"^fn \w+::", "fn ", line)


def missing_quotes(document, number, lines):
    """Yields the number of each quoted line that does not occur in the file named above it."""
    source = ""
    for at, line in enumerate(lines, number + 1):
        quoted = line.strip()
        if re.fullmatch(r"src/[\w/]+\.rt", quoted):
            source = shortened((document.parent / quoted).read_text(encoding="utf-8"))
        elif quoted.startswith("impl "):
            if re.sub(r"^impl ", "", quoted) not in source:
                yield at
        elif quoted and written_out(quoted) not in source:
            yield at


def lines_of(patterns, change=lambda text: text):
    """Returns the lines of each file, after a change of its text."""
    return [bare_lines(change(path.read_text(encoding="utf-8"))) for path in files(patterns)]


@cache
def likely_files(language, page):
    """Returns the lines of the files that a block of a page with this name may be a copy of."""
    patterns = SOURCES[language]
    if page == "README.md":
        return lines_of(patterns) + lines_of(patterns, without_contracts)
    return lines_of(patterns)


def simple_commands(text):
    """Returns the words of each simple command of a shell command, without assignments. A text
    with a quote that does not end is one word."""
    lexer = shlex.shlex(text.replace("\\\n", " "), posix=True, punctuation_chars="|;&()<>\n")
    lexer.whitespace, lexer.whitespace_split = " \t", True
    try:
        parsed = list(lexer)
    except ValueError:
        parsed = [text]
    found = [[]]
    for word in parsed:
        if re.fullmatch(r"[|;&()\n]+", word) or word == "do":
            found.append([])
        elif found[-1] or not re.match(r"\w+=", word):
            found[-1].append(word)
    return [words for words in found if words]


def commands_of(lines):
    """Returns the commands of a block, each with the lines that the block shows after it, or with
    None if the block has no prompts."""
    prompts = any(line.startswith(PROMPT) for line in lines)
    found, command = [], ""
    for line in lines:
        if prompts and found and not command and not line.startswith(PROMPT):
            found[-1][1].append(line)
            continue
        command += line.removeprefix(PROMPT) + "\n"
        if is_complete(command):
            found.append((command, [] if prompts else None))
            command = ""
    return [it for it in [*found, (command, None)] if it[0].strip()]


def is_complete(command):
    """Returns whether the shell needs no further line."""
    return not command.endswith("\\\n") and not subprocess.run(
        ["sh", "-n", "-c", command], stderr=subprocess.DEVNULL
    ).returncode


def exists(path):
    """Returns whether a file exists, or the source from which it is built."""
    built = re.fullmatch(r"(crates/\w+)/out/.*", path)
    if built or tidy.PLACEHOLDER.search(path):
        return not built or (TOP / built[1]).is_dir()
    return any(TOP.glob(path.rstrip("./"))) or (TOP / f"{path}.c").is_file()


def source_of(program):
    """Returns the path of a script, or of the source of a program in C, or None."""
    return next((it for it in (TOP / program, TOP / f"{program}.c") if it.is_file()), None)


@cache
def program_options(program):
    """Returns the options of a program, and the one of the script that starts it."""
    return {it.partition("=")[0] for it in tables.options(program)} | {"--unproved"}


def is_option(program, option):
    """Returns whether a program or a script has an option. Letters may be joined."""
    name = option.partition("=")[0]
    if Path(program).name in PROGRAMS:
        known = program_options(Path(program).name)
        return name in known or all(f"-{letter}" in known for letter in name[1:])
    text = source_of(program).read_text(encoding="utf-8")
    return re.search(rf"(?<![\w-]){re.escape(name)}(?![\w-])", text) is not None


def is_argument(program, word):
    """Returns whether a script names an argument, or it is a crate. Programs take files."""
    source = source_of(program)
    text = source.read_text(encoding="utf-8") if source else word
    return re.search(rf"\b{word}\b", text) is not None or (TOP / "crates" / word).is_dir()


@cache
def rt_guides():
    """Returns what `rt help` prints and the guides of the kit, or None without the kit."""
    if not shutil.which("rt"):
        return None
    run = {"stdout": subprocess.PIPE, "stderr": subprocess.STDOUT, "text": True}
    usage, first = (subprocess.run(["rt", it], **run).stdout for it in ("help", "doc"))
    guides = Path(first.strip()).parent.glob("rattle/*.md")
    return usage + "".join(it.read_text(encoding="utf-8") for it in guides)


def wrong_rt(command, *words):
    """Yields the command and the options of `rt` that its help and its guides do not name."""
    commands = re.findall(r"\brt ([\w|-]+)", rt_guides())
    if command not in {"help", *(name for names in commands for name in names.split("|"))}:
        yield f"rt has no command {command}"
    yield from (f"rt has no option {it}" for it in words if it.startswith("--")
                and not re.search(rf"(?<![\w-]){it}(?![\w-])", rt_guides()))


def wrong_options(program, rest):
    """Yields the options, arguments, targets and examples in a command that do not exist."""
    options = [word for word in rest if re.match(r"--?\w", word)]
    if Path(program).name in PROGRAMS or source_of(program):
        yield from (f"{program} has no option {it}" for it in options if not is_option(program, it))
        yield from (f"{program} does not name {it}" for it in rest
                    if re.fullmatch(r"[a-z_]+", it) and not is_argument(program, it))
    elif program == "make" and rest[:1] == ["-C"]:
        rules = TOP / rest[1] / "Makefile"
        text = rules.read_text(encoding="utf-8") if rules.is_file() else ""
        yield from (f"make has no target {it}" for it in rest[2:] if f"\n{it}:" not in text)
    elif program == "cargo" and "--example" in rest:
        name = rest[rest.index("--example") + 1]
        if not (TOP / f"tools/erased/examples/{name}.rs").is_file():
            yield f"tools/erased has no example {name}"
    elif program == "rt" and rest and rt_guides():
        yield from wrong_rt(*rest)


def wrong_names(command, page):
    """Yields the files and options in a command of a page that do not exist."""
    for words in simple_commands(command):
        program, *rest = words[1:] if words[0] == "python3" and len(words) > 1 else words
        for path in filter(None, map(PATH.fullmatch, words)):
            if not exists(path[1]) and not (page.parent / path[1]).exists():
                yield f"{path[1]} does not exist"
        yield from wrong_options(program, rest)


class Folder:
    """The folder in which the commands of a page are run, and the lines that they printed, and
    wrote to files of the repository `mine`."""

    def __init__(self, work, programs):
        self.work, self.tree = work, work / "sockdiag"
        self.programs = programs
        self.printed = []
        (work / "commands").mkdir()
        for name, path in programs.items():
            (work / "commands" / name).symlink_to(path)
        local = f"{work}/usr/local/lib"
        self.environment = os.environ | {
            "HOME": f"{work}/home", "PATH": f"{work}/commands:{os.environ['PATH']}",
            "PKG_CONFIG_PATH": f"{local}/pkgconfig", "LD_LIBRARY_PATH": local,
        }
        if shutil.which("cc"):
            self.compile()
        else:
            (work / "libsockdiag.a").write_bytes(b"!<arch>\n")
            self.environment["SHARED"] = "no"

    def compile(self):
        """Compiles a library whose functions return 0, and the programs in C."""
        subprocess.run([TOP / "tests/stand_in.sh", "libsockdiag.a"], cwd=self.work, check=True)
        for name in IN_C:
            words = ["cc", "-DWITH_FILTERS", f"-I{TOP}/include", "-o", f"commands/{name}",
                     TOP / f"examples/{name}.c", "libsockdiag.a"]
            subprocess.run(words, cwd=self.work, check=True)

    def prepare(self):
        """Makes the folder of a page: the sources and a release in one."""
        for name in ("sockdiag", "mine", "home", "usr"):
            shutil.rmtree(self.work / name, ignore_errors=True)
        for name in ("bin", "lib", "out"):
            (self.tree / name).mkdir(parents=True)
        (self.work / "mine/crates/try_it/src").mkdir(parents=True)
        for name in ("crates", "crates.txt", "include", "man", "tests", "VERSION"):
            (self.tree / name).symlink_to(TOP / name)
        shutil.copytree(TOP / "tools", self.tree / "tools")
        shutil.copytree(TOP / "examples", self.tree / "examples",
                        ignore=shutil.ignore_patterns("list_sockets", "list_rtt", *IN_C))
        for name, path in [*self.programs.items(),
                           *((it, self.work / "commands" / it) for it in IN_C)]:
            (self.tree / name).symlink_to(path)
            (self.tree / "bin" / name).symlink_to(path)
        for name in ("FILE", "one.pcap"):
            shutil.copy(TOP / "crates/sslist/stdin", self.tree / name)
        for name in ("mine.c", "program.c"):
            (self.tree / name).write_text("#include <sockdiag.h>\n"
                "int main(void) { return (int)sockdiag_version(); }\n")
        shutil.copy(self.work / "libsockdiag.a", self.tree / "lib")
        archive = self.tree / f"{RELEASE}.tar.gz"
        with tarfile.open(archive, "w:gz") as file:
            file.add(TOP / "VERSION", f"{RELEASE}/VERSION")
        digest = hashlib.sha256(archive.read_bytes()).hexdigest()
        Path(f"{archive}.sha256").write_text(f"{digest}  {archive.name}\n")

    def run(self, commands):
        """Runs commands in one shell, up to the first that fails. Returns the standard output of
        each that ended with status 0, and what the failing one printed on standard error."""
        local = f"{self.work}/usr/local"
        outputs = [self.work / f"output.{at}" for at in range(len(commands))]
        errors = self.work / "errors"
        script = "".join(
            f"{{ {command}}} >{output}.part 2>{errors} || exit 1\nmv {output}.part {output}\n"
            for command, output in zip(commands, outputs)
        )
        for output in outputs:
            output.unlink(missing_ok=True)
        script = re.sub("/usr/local|PREFIX", local, script)
        done = subprocess.run(["sh", "-c", script], cwd=self.tree, env=self.environment,
                              stdin=subprocess.DEVNULL, timeout=600)
        texts = [it.read_text("utf-8") for it in outputs if it.exists()]
        texts = [text.replace(local, "/usr/local") for text in texts]
        written = [it.read_text("utf-8") for it in self.work.glob("mine/**/*") if it.is_file()]
        self.printed += [text.splitlines() for text in texts + written]
        return texts, errors.read_text("utf-8") if done.returncode else ""


class Checker:
    """Checks the blocks, and counts them."""

    def __init__(self, folder):
        self.folder = folder
        self.counts = Counter()
        # Blocks that are compared with what the commands of all pages print.
        self.shown = []

    def check_page(self, page, blocks):
        """Yields the line number and the text of each error in the blocks of a page."""
        is_prepared = False
        for number, language, lines in blocks:
            if language in SOURCES or language == "text" and page.name == "CALLING.md":
                continue
            while lines and not lines[-1].strip():
                lines.pop()
            form = next((check for start, check in FORMS.get(language, {}).items()
                         if re.match(start, "".join(lines[:1]))), None)
            if form:
                self.counts["blocks compared"] += 1
                errors = form(self, page, number, lines)
            elif language in (INDENTED, MANUAL):
                if not is_prepared:
                    self.folder.prepare()
                is_prepared = True
                errors = self.check_commands(page, number, lines)
            else:
                errors = [f"block of an unknown form, language {language or 'none'}"]
            yield from ((number, text) for text in errors)

    def check_commands(self, page, number, lines):
        """Runs the commands of a block, and yields what is wrong with them. After a command whose
        tool is missing no other is run."""
        chosen, missing = [], None
        for command, shown in commands_of(lines):
            yield from wrong_names(command, page)
            words = [it[0] for it in simple_commands(command)]
            if NOT_RUN.match(command) or not RUN.issuperset(words):
                self.counts["commands not run"] += 1
                if shown is not None:
                    yield f"is not run, so its output is not compared: {command.strip()}"
                continue
            missing = missing or next((it for it in words if not is_found(it)), None)
            if command.strip() == "./sockdiag" and shown:
                self.counts["commands run"] += 1
                yield from self.check_answers(page, number, shown)
            elif not missing:
                chosen.append((command, shown))
        if missing:
            print(f"skipped: {page.relative_to(TOP)}:{number}: no {missing}")
        self.counts["commands run"] += len(chosen)
        yield from self.compare_outputs(page, number, chosen)

    def compare_outputs(self, page, number, chosen):
        """Runs commands, and compares their output with the lines that the block shows."""
        outputs, errors = self.folder.run([command for command, _ in chosen])
        if KERNEL.search(errors):
            print(f"skipped: {page.relative_to(TOP)}:{number}: {errors.splitlines()[0]}")
        elif len(outputs) < len(chosen):
            yield f"failed: {chosen[len(outputs)][0].strip()}: {errors.strip()}"
        for (command, shown), output in zip(chosen, outputs):
            if shown is not None and shown != output.splitlines():
                yield f"prints something else: {command.strip()}\n{output}"

    def check_answers(self, page, number, lines):
        """Compares answer lines with those of the program. Input lines without another line between
        them have the same answer."""
        inputs, pairs, answered = [], [], False
        for line in lines:
            if ANSWER.match(line):
                pairs += [(it, line) for it in inputs]
            else:
                inputs = [line] if answered else [*inputs, line]
            answered = ANSWER.match(line) is not None
        given = "".join(f"{line}\n" for line, _ in pairs)
        done = subprocess.run([self.folder.programs["sockdiag"]], input=given, text=True,
                              stdout=subprocess.PIPE, check=True)
        for (line, shown), answer in zip(pairs, done.stdout.splitlines(), strict=True):
            if shown != answer:
                yield f"the answer to {line} is {answer}, not {shown}"
        if not answered:
            yield f"no answer to {lines[-1]}"

    def check_shown(self, page, number, lines):
        """Notes lines, which are compared with what all commands print and write when they have
        run."""
        self.shown.append((page, number, lines))
        return []

    def check_reply(self, page, number, lines):
        """Checks that the bytes in a table of a UNIX reply are at their offsets, and are those of a
        line on the page."""
        digits = ""
        for offset, part, *_ in map(str.split, lines[1:]):
            if int(offset) != len(digits) // 2:
                yield f"the bytes {part} are at the offset {len(digits) // 2}"
            digits += part
        if f"unix {digits}" not in page.read_text("utf-8"):
            yield f"the page has no line unix {digits}"

    def check_test_ends(self, page, number, lines):
        """Checks that tests/api has the programs and scripts that print these lines."""
        for line in lines:
            name, _, text = line.partition(": ")
            found = [*TOP.glob(f"tests/api/{name}.c"), *TOP.glob(f"tests/api/{name}.sh")]
            texts = [it.read_text("utf-8") for it in [*found, TOP / "tests/api/check.h"]]
            if not found or not any(text in it for it in texts):
                yield f"no test prints: {line}"

    def check_dependency(self, page, number, lines):
        """Checks that a release has a package at the path of a dependency, or that a command of the
        page writes one there. Other lines may have overflow checked."""
        packed = (TOP / "tests/release.txt").read_text("utf-8")
        path = re.fullmatch(r'sockdiag = \{ path = "(\S+)" \}', "".join(lines[1:2]))
        is_written = path and f"tools/erase {path[1]}\n" in page.read_text("utf-8")
        if not path or not is_written and f" {path[1]}/Cargo.toml\n" not in packed:
            yield f"no crate at {''.join(lines[1:2])}"
        if lines[2:] not in ([], ["", "[profile.release]", "overflow-checks = true"]):
            yield f"other lines after the dependency: {lines[2:]}"

    def check_names(self, page, number, lines):
        """Checks that public items have the names in a list of imports."""
        surface = (TOP / "tests/surface.txt").read_text(encoding="utf-8")
        for name in re.findall(r"\w+", " ".join(re.findall(r"\{(.*?)\}", "".join(lines)))):
            if f"::{name}: pub " not in surface:
                yield f"no public item {name}"

    def check_crates(self, page, number, lines):
        """Checks that a picture has the names of crates, and in crates/README.md all of them: each
        depends only on crates in lower rows."""
        text = (TOP / "crates.txt").read_text(encoding="utf-8")
        found = re.findall(r"(?m)^(\w+)[\w ]*:(.*)$", text)
        crates = {name: used.split() for name, used in found}
        words = [re.split(r"\W+", line) for line in lines]
        rows = [[it for it in row if "_" in it or it in crates] for row in words]
        named = {it: row for row, names in enumerate(rows) for it in names}
        yield from (f"no crate {name}" for name in named if name not in crates)
        if page.parent.name == "crates":
            ours = [name for name in crates if not name.endswith("_tests")]
            yield from (f"{name} is missing" for name in ours if name not in named)
            yield from (f"{name} is not above {used}" for name in ours for used in crates[name]
                        if name in named and named.get(used, len(rows)) <= named[name])

    def wrong_outputs(self):
        """Yields the page, the line number and the text of each block that no command printed."""
        for option in ("--json", "--all"):
            words = [self.folder.programs["sslist"], option, TOP / "crates/sslist/stdin"]
            done = subprocess.run(words, stdout=subprocess.PIPE, stderr=subprocess.DEVNULL,
                                  text=True, check=True)
            self.folder.printed.append(done.stdout.splitlines())
        for page, number, lines in self.shown:
            if not any(occurs_in(lines, it) for it in self.folder.printed):
                yield page, number, f"no command prints or writes: {lines[0]}"


# The first line of a section of dependencies.
DEPENDENCIES = r"\[dependencies\]$"
# How the first line of a block of each form begins, and how the block is checked.
FORMS = {
    INDENTED: {
        rf"({NAMES}) [0-9a-f-]": Checker.check_answers,
        r"(tools/install: |inet  |try_it: |//! )": Checker.check_shown,
        r"\w+: all tests pass$": Checker.check_test_ends,
        DEPENDENCIES: Checker.check_dependency,
        r"\w+(::\w+)*::\{": Checker.check_names,
    },
    "json": {r"\{": Checker.check_shown},
    "toml": {DEPENDENCIES: Checker.check_dependency},
    "text": {r"programs  ": Checker.check_crates, r"offset ": Checker.check_reply},
}


def is_found(word):
    """Returns whether a command is installed, or is a script or a word of the shell."""
    if word in COMPILING:
        return all(map(shutil.which, ("cc", "make", "pkg-config")))
    return "/" in word or word in BUILTIN or shutil.which(word) is not None


def manual_blocks(page):
    """Yields the examples of a manual page in the form of `blocks`."""
    text = page.read_text(encoding="utf-8")
    for block in re.finditer(r"(?ms)^\.Bd -literal.*?\n(.*?)\n\.Ed$", text):
        if text.rfind(".Sh EXAMPLES", 0, block.start()) > text.rfind("\n.Sh ", 0, block.start()):
            yield text.count("\n", 0, block.start()) + 1, MANUAL, block[1].splitlines()


def inline_errors(page):
    """Yields the line number and the text of each error in a command in the text of a page."""
    text = page.read_text(encoding="utf-8")
    without_blocks = re.sub(r"(?ms)^```.*?^```$", lambda it: "\n" * it[0].count("\n"), text)
    for span in re.finditer(r"`([^`]+)`", without_blocks):
        command = span[1].replace("\n", " ").replace("\\|", "|")
        number = without_blocks.count("\n", 0, span.start()) + 1
        if INLINE.match(command):
            yield from ((number, it) for it in wrong_names(command, page))


def copy_errors(page, blocks):
    """Yields the line number and the text of each error in the blocks that are copies of code."""
    for number, language, lines in blocks:
        if language == "text" and page.name == "CALLING.md":
            yield from ((at, "quoted line is not in the file named above it")
                        for at in missing_quotes(page, number, lines))
        elif language in SOURCES:
            block, likely = bare_lines("\n".join(lines)), likely_files(language, page.name)
            if not block or not any(occurs_in(block, it) for it in likely):
                yield number, f"{language} block is not in any file"


def main():
    if len(sys.argv) not in (1, 3):
        sys.exit("usage: tests/pages.py [SOCKDIAG SSLIST]")
    pages = {page: list(blocks(page)) for page in files(DOCUMENTS)}
    errors = [(page, *it) for page, found in pages.items()
              for it in [*copy_errors(page, found), *inline_errors(page)]]
    counts = {"blocks": sum(map(len, pages.values()))}
    if len(sys.argv) == 3:
        pages |= {page: list(manual_blocks(page)) for page in sorted(TOP.glob("man/*"))}
        with tempfile.TemporaryDirectory() as work:
            programs = dict(zip(PROGRAMS, map(os.path.abspath, sys.argv[1:])))
            checker = Checker(Folder(Path(work).resolve(), programs))
            errors += [(page, *it) for page, found in pages.items()
                       for it in checker.check_page(page, found)]
            errors += checker.wrong_outputs()
        counts |= checker.counts
    for page, number, text in errors:
        place = f"{page.resolve().relative_to(TOP)}:{number}"
        print(f"{place.removesuffix(':0')}: {text}")
    shown = ", ".join(f"{count} {name}" for name, count in counts.items())
    print(f"tests/pages.py: {shown}, {len(errors)} errors")
    return 1 if errors else 0


if __name__ == "__main__":
    sys.exit(main())
