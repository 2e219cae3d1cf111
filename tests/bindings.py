#!/usr/bin/env python3
"""Compares the C header with the source, and compiles it without the C library.

- The header has the doc comments of the source, whole, or their first paragraphs: of each struct,
  field, function, constant, option, record and error. Code in its comments is that of functions of
  examples, whole.
- The constants in enums are those of the source, with their numbers. Structs have the layout of
  version 1.0. The number of a version has three digits for each of its later parts.
- tools/bindings reports what the template lacks.
- With make, examples/Makefile runs the commands that are expected.
- With a C compiler, `$CC` or `cc`, it compiles the examples as C99 and as C++. Each struct and each
  field has the size and the offset of the source.

It prints which of these parts it skips. tools/bindings writes the header. With the library,
tests/api/c_api.sh runs the calls.
"""

import os
import re
import runpy
import shutil
import subprocess
import sys
import tempfile
from pathlib import Path

TOP = Path(__file__).resolve().parent.parent
# Do not create tools/__pycache__.
sys.dont_write_bytecode = True
sys.path.append(str(TOP / "tools"))
from declarations import Library, constants_in, decode_errors, record_names, socket_options

BINDINGS = runpy.run_path(str(TOP / "tools/bindings"))
HEADER = (TOP / "include/sockdiag.h").read_text("utf-8")
# Each struct with its size, and its fields with their offsets.
LAYOUTS_1_0 = (TOP / "tests/api/layouts_1_0.txt").read_text("utf-8")
CRATES = TOP / "crates"
# A pkg-config that knows the library.
PKG_CONFIG = """#!/bin/sh
case $* in
    "--cflags sockdiag") echo -I/p ;;
    "--libs sockdiag") echo -L/p -lsockdiag ;;
    "--exists sockdiag") ;;
    *) exit 1 ;;
esac
"""


def words(text):
    """Returns a text as one line, without code marks and names of structs, which differ in C."""
    text = " ".join(text.replace("`", "").split())
    return re.sub(r"\[[A-Z]\w*\]|struct sockdiag_\w+", "STRUCT", text)


def paragraphs(doc):
    """Returns the paragraphs of a doc comment, each as one line."""
    return [words(it) for it in "\n".join(doc).split("\n\n")]


def grammar():
    """Returns the paragraphs about the texts of filters."""
    text = (CRATES / "sock_diag_filters/src/text/parsed.rt").read_text("utf-8")
    doc = re.search(r"(?m)((?:^ +///.*\n)+) +pub fn parse\(", text)[1]
    found = paragraphs(line.strip(" /") for line in doc.splitlines())
    return [it for it in found if not it.startswith(("Parses ", "Fails "))]


def constants():
    """Returns the constants of the crates that the header has by their names."""
    found = [it for path in CRATES.glob("*/src/**/*.rt")
             for it in constants_in(path.read_text("utf-8")).values()]
    return [it for it in found if re.search(rf"\bSOCKDIAG_{it.name}(?: = | \d)", HEADER)]


def number_errors():
    """Returns the constants in enums of the header that the source does not have, as lines."""
    upper = BINDINGS["upper"]
    known = {(it.name, it.value) for it in constants()}
    known |= {(upper(it.name), it.code) for it in decode_errors()}
    known |= {(f"OPTION_{upper(it.name)}", it.number) for it in socket_options()}
    known |= {(f"RECORD_{upper(it.name)}", it.number) for it in record_names()}
    found = re.findall(r"(?m)^    SOCKDIAG_(\w+) = (\w+)", HEADER)
    return [f"no constant of the source: {name} = {number}" for name, number in found
            if (name, number) not in known]


def comment_errors():
    """Returns the doc comments that the header lacks, as lines."""
    shown = [re.sub(r"(?m)^ *\*", "", it) for it in re.findall(r"(?s)/\*(.*?)\*/", HEADER)]
    text = words(" ".join(shown))
    library = Library()
    structs = library.structs.values()
    docs = [*grammar(), *(it for function in library.functions.values()
                          for it in paragraphs(function.doc))]
    docs += [words(" ".join(field.doc)) for it in structs for field in it.fields]
    docs += [paragraphs(it.doc)[0] for rows in (
        structs, constants(), decode_errors(), record_names(), socket_options()) for it in rows]
    linked = re.findall(r"\[[A-Z][a-z]\w*\]", " ".join(shown))
    return [f"the header lacks the comment: {it}" for it in docs if it not in text] + [
        f"the header has a link of Rattle: {it}" for it in linked]


def code_errors():
    """Returns what is wrong with the code in the comments of the header, as lines: a block is a
    function, from its first line to its last one."""
    examples = "".join(it.read_text("utf-8") for it in sorted((TOP / "examples").glob("*.[ch]")))
    functions = re.findall(r"(?m)^(?:static|int) .*\{\n(?:(?!\}$).*\n)*\}$", examples)
    blocks = re.findall(r"(?m)(?:^ \*     .*\n)+", HEADER)
    code = [re.sub(r"(?m)^ \*     ", "", it).rstrip("\n") for it in blocks]
    return [f"no function of an example: {it}" for it in code if it not in functions] or (
        [] if code else ["the header has no code of examples"])


def layout_errors():
    """Returns the fields and sizes that are not those of version 1.0, as lines. A program that was
    compiled with 1.0 reads and writes the fields where they were then, so they never move in 1.N,
    and passes the sizes that the header has in macros."""
    library, found = Library(), []
    passed = dict(re.findall(r"#define (\w+)_SIZE_1_0 (\d+)", HEADER))
    structs = {BINDINGS["struct_in_c"](name): it for name, it in library.structs.items()}
    lines = LAYOUTS_1_0.replace("\n    ", " ")
    for struct, size, fields in re.findall(r"(?m)^(\w+) (\d+): (.*)", lines):
        now = library.layout(structs[struct].fields) if struct in structs else {}
        found += [f"{struct}.{name} was at {offset} in version 1.0"
                  for name, offset in re.findall(r"(\w+) (\d+)", fields)
                  if now.get(name) != int(offset)]
        if passed.pop(struct.upper(), size) != size:
            found.append(f"{struct} had {size} bytes in version 1.0")
    return found + [f"the size of an unknown struct: {it}" for it in passed]


def missing_errors():
    """Returns what tools/bindings does not report if the template lacks it, as lines."""
    writer = BINDINGS["Writer"]()
    writer.without("sock_diag_families/src/xdp/mod.rt=AF_XDP|XDP_SHOW_INF")
    missing = writer.missing()
    return [f"a template without {it} is accepted"
            for it in ("sockdiag_version", "InetHeader", "XDP_SHOW_INFO") if it not in missing]


def version_errors():
    """Returns the errors of the number that tools/bindings makes of a version, as lines."""
    number = BINDINGS["number_of"]("12.34.56")
    return [] if number == 12034056 else [f"the number of version 12.34.56 is {number}"]


def make_lines(path, *arguments):
    """Returns the commands that make would run in a folder, as lines. Next to the folder is a
    program pkg-config."""
    words = ["make", "-n", "--no-print-directory", "-C", path, "CC=cc", "LDFLAGS=-s", *arguments]
    own = {name: it for name, it in os.environ.items()
           if "FLAGS" not in name and name != "PKG_CONFIG"}
    own["PATH"] = f"{path.parent}:{own['PATH']}"
    found = subprocess.run(words, capture_output=True, text=True, env=own, check=False).stdout
    return [" ".join(it.split()) for it in found.splitlines() if not it.startswith("make:")]


def make_errors():
    """Returns the commands of examples/Makefile that are not those expected, as lines: without the
    library, with an installed one, and with that of a release, and after a header changed."""
    names = ["list_sockets", "list_rtt", "sockdump", "socklist"]
    compiled = "cc -std=c99 -O2 -Wall -Wextra -pedantic"
    found = []
    with tempfile.TemporaryDirectory() as folder:
        path, library = Path(folder, "examples"), Path(folder, "lib/libsockdiag.a")
        shutil.copytree(TOP / "examples", path, ignore=shutil.ignore_patterns(*names))
        finder = Path(folder, "pkg-config")
        finder.write_text(PKG_CONFIG, "utf-8")
        finder.chmod(0o755)
        found.append((make_lines(path, "PKG_CONFIG=false", "sockdump"),
                      [f"{compiled} -o sockdump sockdump.c -s"]))
        for header, linked in ("-I/p", "-L/p -lsockdiag"), ("-I../include", "../lib/libsockdiag.a"):
            commands = [f"{compiled} {header} -o {it} {it}.c -s {linked}" for it in names]
            commands[2] = commands[2].replace(header, f"-DWITH_FILTERS {header}")
            found.append((make_lines(path), commands))
            library.parent.mkdir(exist_ok=True)
            library.touch()
        for it in (*names, "all", "clean"):
            (path / it).touch()
        found.append((make_lines(path), []))
        found += [(make_lines(path, "-W", it), commands)
                  for it in ("dump.h", "kernel.h", "socklist_text.h")]
        found.append((make_lines(path, "clean"), [f"rm -f {' '.join(names)}"]))
    return [f"make would run {it}, expected {expected}" for it, expected in found if it != expected]


def layout():
    """Returns a text in C that can be compiled if each struct and each field has its size and offset.
    The compiler lays out bit fields."""
    library = Library()
    lines = ['#include "sockdiag.h"',
             "#define IS(it, number) extern int is[(it) == (number) ? 1 : -1]"]
    for name, struct in library.structs.items():
        in_c, offsets = f"struct {BINDINGS['struct_in_c'](name)}", library.layout(struct.fields)
        lines.append(f"IS(sizeof({in_c}), {library.sizes[name]});")
        for it in struct.fields:
            if not it.bits:
                size = library.size_and_align(it.kind)[0]
                lines += [f"IS(offsetof({in_c}, {it.name}), {offsets[it.name]});",
                          f"IS(sizeof((({in_c} *)0)->{it.name}), {size});"]
    return "\n".join(lines) + "\n"


def compile_c(compiler):
    """Compiles the C files against the header. Returns an exit status."""
    strict = "-Wall -Wextra -Wpedantic -Werror -fsyntax-only -Iinclude -x".split()
    # This fails if the compiler does not support C++.
    plus = [compiler, "-fsyntax-only", "-x", "c++", os.devnull]
    has_plus = subprocess.run(plus, stderr=subprocess.DEVNULL).returncode == 0
    for language, standard, *files in [
        ("c", "c99", "examples/list_sockets.c"),
        ("c++", "c++11", "examples/list_sockets.c"),
        ("c", "c99", "examples/list_rtt.c"),
        ("c++", "c++11", "examples/list_rtt.c"),
        ("c", "c99", "examples/sockdump.c"),
        ("c++", "c++11", "examples/sockdump.c"),
        ("c", "c99", "-DWITH_FILTERS", "examples/sockdump.c"),
        ("c++", "c++11", "-DWITH_FILTERS", "examples/sockdump.c"),
        ("c", "c99", "examples/socklist.c"),
        ("c++", "c++11", "examples/socklist.c"),
    ]:
        if language == "c++" and not has_plus:
            print(f"skipped: the header as C++: {compiler} does not support C++")
            continue
        words = [compiler, f"-std={standard}", *strict, language, *files]
        status = subprocess.run(words, cwd=TOP).returncode
        if status != 0:
            return status
    words = [compiler, "-std=c99", *strict, "c", "-"]
    status = subprocess.run(words, cwd=TOP, input=layout(), text=True).returncode
    if status != 0:
        return status
    narrow = ["-U__SIZEOF_POINTER__", "-D__SIZEOF_POINTER__=4", "include/sockdiag.h"]
    done = subprocess.run([compiler, "-Wno-builtin-macro-redefined", *strict, "c", *narrow],
                          cwd=TOP, stderr=subprocess.PIPE, text=True)
    if '#error "sockdiag.h is for hosts with pointers of 64 bits' not in done.stderr:
        print(f"the header for pointers of 32 bits: {done.stderr}")
        return 1
    return 0


def main():
    checks = [comment_errors, code_errors, number_errors, layout_errors, missing_errors,
              version_errors]
    if shutil.which("make"):
        checks.append(make_errors)
    else:
        print("skipped: the commands of examples/Makefile: no make")
    errors = [it for check in checks for it in check()]
    if errors:
        print(*errors, "tests/bindings.py: failed", sep="\n")
        return 1
    compiler = os.environ.get("CC", "cc")
    if not shutil.which(compiler):
        print(f"skipped: compiling the header: no C compiler {compiler}")
        return 0
    status = compile_c(compiler)
    if status != 0:
        print("tests/bindings.py: failed")
    return status


if __name__ == "__main__":
    sys.exit(main())
