#!/usr/bin/env python3
"""Tests the tests: runs each script of the gate in a copy of the repository in which an error is
planted. The script has to fail, and to report this error.

    tests/teeth.py           tries all rows of the table ROWS
    tests/teeth.py WORD..    tries the rows whose command or report contains one of these words

Some rows change a text. In the others a stand-in takes the place of what the script runs: of a
built program, the prover, a compiler or cargo. So nothing needs to be built. The gate itself, run
with stand-ins of its scripts, has to run all of them, and to fail if one fails. Takes half a minute
of one processor.

A script of tests/ or tests/api/ without a row is an error. Prints the rows whose error was not
reported, and those that are skipped since a tool is missing. The exit status is 1 if a row failed.
"""

import os
import re
import shutil
import signal
import subprocess
import sys
import tempfile
from pathlib import Path
from typing import NamedTuple

TOP = Path(__file__).resolve().parent.parent
# Scripts that need no row, since others run them or the gate does not, and scripts that only
# others of tests/api run.
CALLED = {"tests/over_gate.sh", "tests/stand_in.sh", "tests/api/call_library.sh",
          "tests/api/fetch_targets.sh", "tests/api/reply_reader.py"}
OF_C_API = {"tests/api/compare_libraries.py", "tests/api/compare_listers.py",
            "tests/api/compare_replies.sh", "tests/api/kernels.py", "tests/api/sockdump.py",
            "tests/api/socklist.py"}
# Variables that would change what the scripts run.
UNSET = {"CC", "CFLAGS", "CARGO_TARGET_DIR", "ERASED_TOOLS", "SOCKDIAG_LIBRARY",
         "SOCKDIAG_PROGRAM", "SSLIST_PROGRAM"}
# The stand-in of most programs. It fails if its name and its arguments match $FAILS.
PROGRAM = """#!/bin/sh
name="${0##*/}${*:+ $*}"
case $name in
    $FAILS) echo "planted: $name" >&2; exit 1 ;;
    fake_list*) echo 'usage: a port is a number from 1 to 65535' >&2; exit 2 ;;
esac
"""
# A stand-in of what the gate runs, which says that it was run.
PASSED = f"{PROGRAM}echo \"passed: $name\" >&2\n"
# A stand-in of the independent reader, which compares no reply.
READER = """import os, sys
if "reply_reader.py make 100000 1" == f"{os.environ['FAILS']} {' '.join(sys.argv[1:])}":
    sys.exit("planted: reply_reader.py make 100000 1")
"""
# The stand-ins, which precede all programs in PATH. The compiler writes stand-ins.
STAND_INS = {
    **dict.fromkeys(("cargo", "chromium", "diff", "make", "pkg-config", "program", "rt",
                     "rustdoc"), PROGRAM),
    "gate/python3": PASSED,
    **dict.fromkeys(("cc", "aarch64-linux-gnu-gcc", "musl-gcc"), """#!/bin/sh
output= before=
for word; do
    [ "$before" != -o ] || output=$word
    before=$word
done
case "$output $* $FAILS" in
    */alone*' alone') echo 'planted: alone' >&2; exit 1 ;;
    *.o\\ *) cat >"$output" ;;
    /*) cp "${0%/*}/program" "$output" ;;
esac
"""),
    "qemu-aarch64-static": '#!/bin/sh\nshift 2\nexec "$@"\n',
    # It prints its version, or a folder, which has the sources of Rust's library.
    "rustc": """#!/bin/sh
case $1 in --version) echo 'rustc 1.95.0' ;; *) echo "${0%/*}" ;; esac
""",
    "objdump": """#!/bin/sh
[ "$FAILS" = overflow ] || echo 'call <add_overflow>'
[ "$FAILS" != panics ] || yes 'call <panic>' | head -n 1000
""",
    "lib/rustlib/src/rust/library/vendor/empty": "",
    "nm": '#!/bin/sh\n[ "$FAILS" != nm ] || exit 1\necho "$FAILS"\n', "groff": '#!/bin/sh\necho "$FAILS" >&2\n',
    # Programs under valgrind have to run with these options, except those that are measured.
    "valgrind": """#!/bin/sh
for option in --leak-check=full --error-exitcode=1; do
    case " $* " in
        *" $option "*|*' --tool=callgrind '*) ;;
        *) echo "planted: valgrind without $option" >&2; exit 1 ;;
    esac
done
while case $1 in -*) ;; *) false ;; esac do shift; done
exec "$@"
""",
    "sockdiag": "#!/bin/sh\nexec sed 's/.*/planted/'\n",
    "sslist": """#!/bin/sh
if [ "$(head -c 1000 | wc -c)" -lt 1000 ]; then echo '{"info": {}}'; exit; fi
printf '{"family": %s}\\n' 1 2 10 16 17 40 44
""",
    # Tests of failed allocations, one that fails and one that passes, and a program that reports no
    # error.
    "allocations": """#!/bin/sh
[ "$1" = --list ] && echo 'a::out_of_memory::b: test'
""",
    "passing": """#!/bin/sh
[ "$1" != --list ] || echo 'a::out_of_memory::b: test'
""",
    "unreported": "#!/bin/sh\necho refused >&2\n",
    "sleeper": "#!/bin/sh\nexec sleep 5\n",
}
# A library without functions, which is newer than the sources.
LIBRARY = ("crates/sockdiag_c/out/libsockdiag_c.a", None, "!<arch>\n")


class Row(NamedTuple):
    """A command, and what it has to report. Each text that is planted has the file, the old and the
    new text: the old text occurs once, the empty one is the end of the file, and without one the
    file has the new text only. Without `fails` there are no stand-ins. `needs` are tools."""

    command: str
    reported: tuple
    planted: tuple = ()
    fails: str = None
    needs: str = ""


def names(file, pattern):
    """Returns the names of the functions in a script whose definitions match a pattern."""
    return tuple(re.findall(rf"(?m)^def {pattern}:$", (TOP / file).read_text("utf-8")))


LINES = "".join(f"line {it}\n" for it in range(21))
PAGE = """# Planted

Run `tests/tidy.py --planted`. A copy:

```rust
planted();
```

```json
{"planted": 1}
```

```toml
[dependencies]
planted
```

```text
planted
```

An answer:

    unix 00
    ok 00

Two commands:

    $ sslist FILE
    planted

Another one:

    $ planted
    1
"""
FUNCTION = "\nfn planted() -> u8 {\n    1\n}\n"
# An edit of a function that is added for it.
EDIT = (
    ("crates/netlink_core/src/error.rt", "", FUNCTION),
    ("tests/edits/netlink_core/planted.edit", None,
     "file: src/error.rt\nold: fn planted() -> u8 {\nnew: fn planted() -> u16 {\n"),
)
# Two edits that are tried in one check, of functions that are added for them.
EDITS = (
    ("crates/netlink_core/src/error.rt", "",
     "\nfn first() -> u8 {\n    101\n}\n\nfn second() -> u8 {\n    102\n}\n"),
    ("tests/edits/netlink_core/first.edit", None, "file: src/error.rt\nold: 101\nnew: 201\n"),
    ("tests/edits/netlink_core/second.edit", None, "file: src/error.rt\nold: 102\nnew: 202\n"),
)
C_API, ERASED = "tests/api/c_api.sh", "tests/api/erased.sh"
COMPARISON = "tests/api/compare_erased.sh"
MEMORY, SOCKDUMP = "tests/api/out_of_memory.sh", "tests/api/sockdump.py"
SOCKLIST = "tests/api/socklist.py"
TARGETS, BUILDS = "tests/api/erased_targets.sh", "tests/api/builds.sh"
# What c_api.sh runs after the calls from C.
LATER = tuple((it, None, PROGRAM) for it in (
    "tools/install", "tests/api/kernels.py", SOCKDUMP, SOCKLIST, "crates/sslist/out/sslist"))
# An eraser that writes only a library and the programs, which cargo would build, for each target.
ERASER = (("tools/erase", None, """#!/bin/sh
top=$PWD
for target in aarch64-unknown-linux-gnu x86_64-unknown-linux-musl; do
    mkdir -p "$1/target/release" "$1/target/$target"
    ln -s ../release "$1/target/$target/release"
done
cd "$1/target/release"
for name in sockdiag sslist; do
    cat >"$name" <<END
#!/bin/sh
[ "\$FAILS" != $name ] || echo planted
exec cat $top/crates/$name/stdout
END
    chmod +x "$name"
done
: >sockdiag_c.o
ar rcs libsockdiag_c.a sockdiag_c.o
case $FAILS in other) echo $$ >libsockdiag_c.so ;; *) : >libsockdiag_c.so ;; esac
"""), *((it, None, PROGRAM) for it in (
    "tests/api/c_api.sh", "tests/api/kernels.py", "tests/captures.py", "tests/programs.py")))
# Makes two libraries whose functions return 0, except the version of the second one.
LIBRARIES = ("libraries.sh", None, """set -eu
sed -n 's/^[a-z0-9_]* \\(sockdiag_[a-z0-9_]*\\)(.*/long \\1(void) { return 0; }/p' \\
    include/sockdiag.h >one.c
sed '/sockdiag_version/s/0/1/' one.c >two.c
for name in one two; do cc -shared -fPIC -o "$name.so" "$name.c"; done
exec "$1" one.so two.so 1
""")
# The scripts that the gate runs, and what its stand-ins print.
SCRIPTS = sorted(str(path.relative_to(TOP)) for it in ("tests/*.py", "tests/*.sh", "tests/api/*")
                 for path in TOP.glob(it) if path.is_file() and os.access(path, os.X_OK))
GATE = "PATH=$STAND_INS/gate:$PATH .ci/run"
STUBS = tuple((it, None, PASSED) for it in (
    "tools/bindings", "tools/build", "tools/usage", *(it for it in SCRIPTS if it[-3:] == ".sh")))
CALLS = ("python3 tests/pages.py out/static/sockdiag", "python3 tests/tables.py out/static/sslist",
         "python3 tests/answers/answers.py check", "build rattle arm64 wasm lister",
         "build sockdiag sslist",
         "bindings --check", "usage --check",
         *(f"python3 {it}" if it.endswith(".py") else Path(it).name
           for it in SCRIPTS if it not in {COMPARISON, *CALLED, *OF_C_API}))
COMPARED = ("tests/api/reply_reader.py", None, READER)
# What compare_erased.sh compares.
BUILT = (
    LIBRARY, ("crates/sockdiag/out/sockdiag", None, "#!/bin/sh\n"),
    ("out/erased/target/release/sockdiag", None,
     '#!/bin/sh\n[ "$FAILS" != sockdiag ] || echo planted\n'),
    *((it, None, PROGRAM) for it in (
        "tests/api/reply_reader.py", "tests/api/compare_listers.py",
        "tests/api/compare_libraries.py")),
)
# Changes of the sources of the C library that a header cannot have, and what is reported: a file in
# `crates`, the old and the new text.
NO_HEADER = (
    ("sockdiag_c/src/version.rt", "u32 = ", "u32 = 9_", "VERSION of the library is not "),
    ("sockdiag_c/src/version.rt", "-> u32", "-> u64",
     "sockdiag_version returns u64, expected a u32"),
    ("sockdiag_c/src/version.rt", "#[unsafe(no_mangle)]\n", "", "sockdiag_version is not exported"),
    ("sockdiag_c/src/walks.rt", "size_of::<Cursor>() == 8", "size_of::<Cursor>() == 9",
     "the source does not state that Cursor has 8 bytes"),
    ("sockdiag_c/src/walks.rt", "type_word: u16", "type_word: bool",
     "the header has no type for bool"),
    ("sockdiag_c/src/filters.rt", "limit { result ≤ 80 }", "limit { result < 80 }",
     "the source has no number for request_len"),
    ("sock_diag_extras/src/tcp_info.rt", "TcpField::Probes => (3, 1)", "TcpField::Probes => (4, 1)",
     "probes of TcpInfo is not probes of TcpField"),
)
ROWS = [
    Row(GATE, (f"ci: failed: {COMPARISON}", *(f"passed: {it}" for it in CALLS)), STUBS,
        "compare_erased.sh"),
    Row(GATE, (f"ci: failed: {ERASED}",), STUBS, "erased.sh"),
    Row(GATE, ("ci: failed: rt ci",), STUBS, "rt ci"),
    Row(GATE, ("ci: failed: python3 tests/tidy.py",), STUBS, "python3 tests/tidy.py"),
    Row(GATE, ("ci: failed: tests/edits.py",), STUBS, "python3 tests/edits.py -"),
    Row("python3 tests/tidy.py", (
        "planted.edit: occurs 0 times", "docs/PLANTED.md: nowhere.md does not exist",
        "docs/PLANTED.md: tests/nowhere.py does not exist", "tests/planted.py:22: 101 columns",
        "tests/planted.py:1: more than 20 lines as at tests/planted.sh:2",
        "tests/planted.sh:23: cd without CDPATH=''",
        "include/sockdiag.h: 9", "man/sslist.1: .Dd 9", "debian/changelog: 9", "the date Sat, ",
        "debian/copyright: not the text of LICENSE-MIT", "tests/appended.sh: not executable",
        "debian/control: 91.",
    ), (
        EDIT[1], ("tests/appended.sh", "", "#!/bin/sh\n"),
        ("docs/PLANTED.md", None, "[a](nowhere.md) `tests/nowhere.py`\n"),
        ("tests/planted.py", None, LINES + 101 * "x"),
        ("tests/planted.sh", None, f'#!/bin/sh\n{LINES}cd -- "$(dirname -- "$0")"\n'),
        ("include/sockdiag.h", '#define SOCKDIAG_VERSION "', '#define SOCKDIAG_VERSION "9'),
        ("man/sslist.1", ".Dd ", ".Dd 9"),
        ("debian/changelog", "sockdiag (", "sockdiag (9"),
        ("debian/control", "rustc (>= ", "rustc (>= 9"),
        ("debian/changelog", ">  ", ">  Sat, "),
        ("LICENSE-MIT", "Permission ", "Permission planted "),
    )),
    Row("python3 tests/pages.py $STAND_INS/sockdiag $STAND_INS/sslist", (
        "tests/tidy.py has no option --planted", "rust block is not in any file",
        "no command prints or writes: {", "no crate at planted", "form, language text",
        "the answer to unix 00 is planted, not ok 00",
        "prints something else: sslist FILE", "its output is not compared: planted",
    ), (
        ("docs/PLANTED.md", None, PAGE),
        ("tests/pages.py", "DOCUMENTS = [", 'DOCUMENTS = ["docs/PLANTED.md"] or ['),
    )),
    Row("python3 tests/tables.py $STAND_INS/sslist", (
        "man/sockdiag.3: int sockdiag_planted(void) is missing", "unexpected ('99', 'SOCKDIAG_",
        "sockdiag_nowhere is not both declared and named", "has the text sockdiag: out of planted",
        "LICENSES.md: planted is missing", "docs/LINES.md: planted is missing",
        "INSTALL.md: planted is missing", "man/sslist-json.5: unexpected ",
        "planted, which is linked into", "groff: planted::it", "the option --planted is missing",
        "man/socklist.1: no source has the option --yesplanted",
        "tcp-reply.svg: the bytes a8 da 29 00 are not 42", "a stored line and its answer: inet 020102",
        "speed.svg: docs/SPEED.md lacks checked and traversed, the worst reply, 9.76, width 318.78",
    ), (
        ("examples/sockdump.c", '"usage: sockdump ', '"usage: sockdump --planted '),
        ("man/socklist.1", ".It Fl -yes", ".It Fl -yesplanted"),
        ("docs/pictures/tcp-reply.svg", ">2742952<", ">42<"),
        ("docs/pictures/tcp-reply.svg", ">c0 a8 b2 3c<", ">c0 a8 b2 3d<"),
        ("docs/pictures/speed.svg", ">1.61<", ">9.76<"),
        ("include/sockdiag.h", "", "int sockdiag_planted(void);\n/* sockdiag_nowhere */\n"),
        ("man/sockdiag.3", ".It 2 Dv SOCKDIAG_", ".It 99 Dv SOCKDIAG_"),
        ("man/sockdiag.1", ".It sockdiag: out of ", ".It sockdiag: out of planted"),
        ("crates.txt", "", "# kit: planted\n"),
        ("tests/help/sockdiag", "Names: ", "Names: planted, "),
        ("tests/release.txt", "", "== planted_VERSION_amd64.deb\n"),
    ), "planted::it"),
    Row("python3 tests/surface.py", (
        "+netlink_core::planted: pub fn planted() -> u8; ensures planted; ",
        "+netlink_core.specs.Bytes: IsBytes; ", "the list is out of date",
        "+package::errors::planted: pub fn planted()",
    ), (
        ("tools/erased/src/errors.rs", "", "\npub fn planted() {}\n"),
        ("crates/netlink_core/src/lib.rt", "",
         "\npub fn planted() -> u8\n    ensures planted { result ≡ 1 }\n{\n    1\n}\n"),
        ("crates/netlink_core/specs/Bytes.antt", " index < 256", " index < 257"),
    )),
    Row("python3 tests/imports.py", (
        "crates.txt: netlink_core uses planted",
        "gives PLANTED of netlink_core the name of another item, EXCHANGED",
        "sock_diag_any.nla: XDP_DIAG_RX_RING is the name of a public item, and no law states "
        "its number", "crates.txt: sock_diag_any does not name planted",
        "crates/netlink_core/src/lib.rt: nothing uses IsPlanted",
    ), (
        ("crates.txt", None, "netlink_core: planted\nsock_diag_families:\n"
         "sock_diag_any: sock_diag_families planted\n"),
        ("crates/netlink_core/src/lib.rt", "",
         "use crate::planted::{PLANTED as EXCHANGED};\nconst EXCHANGED: u8 = 1;\n"
         "ghost use Rattle.netlink_core.specs.Bytes.{IsBytes as IsPlanted};\n"),
        ("crates/sock_diag_any/src/nla.rt", " XDP_DIAG_RX_RING,", ""),
        ("crates/sock_diag_any/src/nla.rt", "", "const XDP_DIAG_RX_RING: u16 = 4;\n"),
    )),
    Row("python3 tests/kernel_headers.py", (
        "SOCK_DIAG_BY_FAMILY: 20 in the headers, 21 in the crates",
        "START(unix_diag_msg, udiag_ino): 4 in the headers, 5 in the crates",
    ), (
        ("crates/sock_diag_records/src/constants.rt", "SOCK_DIAG_BY_FAMILY: u16 = 20;",
         "SOCK_DIAG_BY_FAMILY: u16 = 21;"),
        ("crates/sock_diag_records/specs/UnixResponseHeader.antt",
         "u32 4 UnixResponseHeader.inode", "u32 5 UnixResponseHeader.inode"),
    ), needs="gcc /usr/include/linux/sock_diag.h"),
    Row("python3 tests/believed.py", (
        "netlink_core.specs.Bytes: planted is a lemma in a module of definitions",
        "IsPlanted: there is no module Rattle.netlink_core.specs.Planted",
    ), (
        ("crates.txt", None, "netlink_core:\nnetlink_packet_sock_diag: netlink_core\n"),
        ("crates/netlink_core/specs/Bytes.antt", "", "\nplanted : 1 ≡ 1\n"),
        ("crates/netlink_core/src/lib.rt", "",
         "ghost use Rattle.netlink_core.specs.Planted.{IsPlanted};\n"
         "pub fn planted() -> u8\n    ensures { IsPlanted result }\n{\n    1\n}\n"),
    )),
    # Without an error: that a member of a member is listed.
    Row("python3 tests/believed.py --of netlink_core::planted && false", ("\nT.codec.planted\n",),
        (("crates/netlink_core/src/lib.rt", "",
          "pub fn planted<T: HasCodec>()\n    ensures { T.codec.planted }\n{}\n"),)),
    Row("python3 tests/start.py", ("sslist: planted 'gone'",),
        (("tools/start", "cannot read '$shown", "planted '$shown"),)),
    Row("tests/vendor.sh", ("vendor.sh: from is not refused: 2",),
        (("tools/vendor", "$1 is in this repository", "$1 is planted"),)),
    Row("tests/release.sh", ("two trees are not packed to the same bytes",),
        (("tools/pack", ' --mtime="@$epoch"', ""),), needs="cc"),
    Row("tests/install.sh", ("install: failed: --help",),
        (("tools/install", "usage: tools/install PREFIX", "planted"),), needs="cc make pkg-config"),
    Row("tools/bindings --check", ("-planted", "include/sockdiag.h is out of date"),
        (("include/sockdiag.h", "", "planted\n"),)),
    Row("tools/bindings --check", ("+/* planted@example.org */",),
        (("tools/templates/sockdiag.h.in", "", "/* planted@example.org */\n"),)),
    Row("tools/bindings --check", ("tools/templates/sockdiag.h.in lacks VegasInfo",),
        (("tools/templates/sockdiag.h.in", "@struct VegasInfo\n", ""),)),
    Row("tools/bindings --planted", ("tools/bindings [--check]: writes include/sockdiag.h",)),
    *(Row("tools/bindings --check", (reported,), ((f"crates/{file}", old, new),))
      for file, old, new, reported in NO_HEADER),
    Row("tools/usage --check", ("tests/help/sslist is out of date",),
        (("tests/help/sslist", "", "planted\n"),)),
    Row("tools/usage --check", ("the description of .It Fl n , -numeric lacks: never",),
        (("man/sslist.1", "hosts are never resolved", "hosts are resolved"),)),
    Row("tools/usage --check", ("man/sockdiag.1: exit statuses 0 1 4, in the usage 0 1 3",),
        (("man/sockdiag.1", "\n.It 3\n", "\n.It 4\n"),)),
    Row("python3 tests/bindings.py", ("the header lacks the comment: Planted",),
        (("crates/sockdiag_c/src/version.rt", "/// Returns the version", "/// Planted"),)),
    Row("python3 tests/bindings.py", ("tests/bindings.py: failed", "planted"),
        (("examples/list_rtt.c", "", "planted;\n"),), needs="cc"),
    *(Row("python3 tests/edits.py tests/edits/netlink_core/planted.edit",
          (f"planted.edit: not rejected: error::planted, status {status}",),
          (*EDIT, ("tests/over_gate.sh", None, f"#!/bin/sh\necho '{said}'\nexit {status}\n")), "")
      for status, said in ((0, ""), (1, "error: planted"), (2, "fn netlink_core::error::planted: "
                           "not proved"), (1, "fn netlink_core::error::other: not proved"))),
    Row("python3 tests/edits.py tests/edits/netlink_core/first.edit "
        "tests/edits/netlink_core/second.edit",
        ("netlink_core: 2 edits", "first.edit: rejected", "second.edit: not rejected"),
        (*EDITS, ("tests/over_gate.sh", None,
                  "#!/bin/sh\necho 'fn netlink_core::error::first: not proved'\nexit 1\n")), ""),
    Row("python3 tests/edits.py - </dev/null", ("not tried, since a library was not proved",),
        (("tests/over_gate.sh", None, "#!/bin/sh\nexit 1\n"),), ""),
    Row("python3 tests/programs.py $STAND_INS/program $STAND_INS/program",
        names("tests/programs.py", r"(test_\w+)\(program\)"), (), "*"),
    Row("python3 tests/captures.py $STAND_INS/program",
        names("tests/captures.py", r"((?!main)\w+)\(\)"), (), "*"),
    Row("tests/api/must_not_compile.sh", ("a name that outlives its bytes was not rejected",),
        (("tests/over_gate.sh", None, PROGRAM),), ""),
    Row(f"{MEMORY} $STAND_INS/allocations $STAND_INS/program $STAND_INS/program",
        ("a::out_of_memory::b: allocations 1 to 1 fail: the test failed",), (), ""),
    Row(f"{MEMORY} $STAND_INS/program $STAND_INS/program $STAND_INS/program",
        ("program lists no such test",), (), ""),
    Row(f"{MEMORY} $STAND_INS/passing $STAND_INS/unreported $STAND_INS/program",
        ("unreported: allocations 1 to 1 fail: no error",), (), ""),
    Row(f"{MEMORY} $STAND_INS/passing $STAND_INS/program $STAND_INS/program",
        ("planted: valgrind without --leak-check=full",),
        ((MEMORY, "valgrind -q --leak-check=full", "valgrind -q"),), ""),
    Row("tests/api/library.sh --of-gate", ("planted: rt lib", "library.sh: failed"), (),
        "rt lib *"),
    *(Row(C_API, (f"planted: {it.removesuffix(' *')}",), (LIBRARY, COMPARED, *LATER), it)
      for it in ("c_api", "c_values", "c_messages", "cost *", "fuzz_c 20000 *", "diff *",
                 "install *", "make *", "kernels.py *", "sockdump.py *", "socklist.py *",
                 "print_replies")),
    Row(C_API, ("planted: valgrind without --error-exitcode=1",),
        (LIBRARY, (C_API, " --error-exitcode=1", "")), ""),
    Row(C_API, ("the library calls these functions", "planted"), (LIBRARY,), " U planted"),
    Row(C_API, (f"{C_API}: failed",), (LIBRARY,), "nm"),
    Row(C_API, ("planted: alone",), (LIBRARY,), "alone"),
    Row(C_API, ("planted: reply_reader.py make 100000 1",), (LIBRARY, COMPARED), "reply_reader.py"),
    Row("tests/api/compare_replies.sh 1", ("the reader's lines (<) and those of the library (>)",),
        (LIBRARY,), ""),
    Row("python3 tests/erased.py", ("crates/netlink_core/src/nla.rt: = MAX_VALUE_LEN",
                                    "tools/erase accepts impl<T> A for &T {}"), (
        ("tools/erase", "    gap = ",
         "    rest = rest.replace(' <= MAX_VALUE_LEN', ' < MAX_VALUE_LEN')\n    gap = "),
        ("tools/erase", "        yield from silent(s, i)\n", ""),
    )),
    Row("python3 tests/erased.py", ("the attribute must_use is not known",),
        (("crates/netlink_core/src/lib.rt", "", "\n#[must_use]\npub fn planted() {}\n"),)),
    *(Row(ERASED, (f"planted: {it.split(' *')[0]}",), (LIBRARY, *ERASER), it, "ar")
      for it in ("cargo build *", "cargo test --offline --no-default-features",
                 "cargo test --offline --features c", "cargo doc *",
                 "cargo clippy --offline --features c *",
                 "cargo clippy --offline --no-default-features *",
                 "captures.py *", "programs.py *", "kernels.py *", "c_api.sh")),
    *(Row(COMPARISON, (reported,), BUILT, fails) for reported, fails in (
        ("the answers to many lines differ", "sockdiag"),
        ("planted: reply_reader.py make 100000 1", "reply_reader.py *"),
        ("planted: compare_listers.py", "compare_listers.py *"),
        ("planted: compare_libraries.py", "compare_libraries.py *"))),
    *(Row(ERASED, (reported,), ERASER, fails, "ar")
      for reported, fails in (("sockdiag/stdin differ", "sockdiag"), ("libsockdiag_c.so", "other"),
                              ("panics at 1000 places", "panics"),
                              ("overflow is not checked", "overflow"))),
    *(Row(TARGETS, (f"planted: {it.split('*')[0]}", f"{TARGETS}: failed"), (*ERASER, COMPARED), it,
          "ar")
      for it in ("c_api", "c_values", "c_messages", "fuzz_c 20000 *", "print_replies",
                 "cargo build --release --offline --target aarch64-unknown-linux-gnu",
                 "cargo test --offline --target aarch64-unknown-linux-gnu --no-default-features *",
                 "cargo test --offline --target aarch64-unknown-linux-gnu -- *",
                 "cargo build --release --offline --target x86_64-unknown-linux-musl --package *",
                 "cargo test --offline --target x86_64-unknown-linux-musl -Z *")),
    *(Row(TARGETS, (f"{it}/stdout differ",), (*ERASER, COMPARED), it, "ar")
      for it in ("sockdiag", "sslist")),
    Row(BUILDS, (f"{BUILDS}: failed",), (("out/static/sockdiag", None, PROGRAM),), ""),
    Row("python3 tests/page.py VERSION $STAND_INS/sockdiag VERSION $STAND_INS/sslist",
        ("10 replies, 10 wrong", "3 lists, 3 wrong"), (), ""),
    Row("tests/answers/answers.py check $STAND_INS/sockdiag $STAND_INS/sslist",
        ("the corpus has {'reply': '",), (), ""),
    Row("sh libraries.sh tests/api/compare_libraries.py",
        ("sockdiag_version: the first difference at call 1: 0 and 1", ": 1 differ"), (LIBRARIES,),
        needs="cc"),
    Row("tests/api/compare_listers.py true false", ("0 and 1: fewer lines", "404 runs, 404 differ"),
        (), ""),
    Row("tests/api/kernels.py $STAND_INS/program",
        ("with the replies of linux-4.14", "with descriptor 0 closed: status 0"), (), ""),
    Row(f"{SOCKDUMP} $STAND_INS/program", names(SOCKDUMP, r"(test_\w+)\(.*\)"), (), ""),
    Row(f"{SOCKLIST} $STAND_INS/program $STAND_INS/program $STAND_INS/program",
        names(SOCKLIST, r"(test_\w+)\(.*\)"), (), ""),
    # A run that takes too long ends with SIGKILL.
    Row(f"{SOCKDUMP} $STAND_INS/sleeper", ("test_usage: ['-V']: (-9, b'', ",),
        ((SOCKDUMP, "LIMIT = 60", "LIMIT = 0.2"),), ""),
]


def plant(top, planted, old_bytes):
    """Plants texts in a copy. Stores the old bytes of each file by its path, or None."""
    for file, old, new in planted:
        path = top / file
        before = path.read_bytes() if path.exists() else None
        text = (before or b"").decode()
        if old and text.count(old) != 1:
            raise ValueError(f"occurs {text.count(old)} times in {file}: {old}")
        old_bytes.setdefault(path, before)
        path.parent.mkdir(parents=True, exist_ok=True)
        changed = new if old is None else text.replace(old, new) if old else text + new
        path.write_text(changed, "utf-8")
        if old is None and new.startswith("#!"):
            path.chmod(0o755)


def put_back(old_bytes):
    """Takes out what was planted."""
    for path, before in old_bytes.items():
        if before is None:
            path.unlink()
        else:
            path.write_bytes(before)


def missing_tool(row):
    """Returns a tool that a row needs and that is missing, or None."""
    return next((it for it in row.needs.split() if not shutil.which(it) and not Path(it).is_file()),
                None)


def run(command, folder, variables):
    """Returns the exit status and the output of a command. It is ended after two minutes."""
    running = subprocess.Popen(["sh", "-c", command], cwd=folder, env=variables, text=True,
                               stdin=subprocess.DEVNULL, stdout=subprocess.PIPE,
                               stderr=subprocess.STDOUT, errors="replace", start_new_session=True)
    try:
        output = running.communicate(timeout=120)[0]
    except subprocess.TimeoutExpired:
        os.killpg(running.pid, signal.SIGKILL)
        return 0, f"no end in two minutes\n{running.communicate()[0]}"
    return running.returncode, output


def what_is_wrong(row, top, stand_ins):
    """Runs a row in a copy. Returns what the script did not report, and its output, or ""."""
    variables = {name: it for name, it in os.environ.items() if name not in UNSET}
    variables |= {"STAND_INS": str(stand_ins), "PYTHONDONTWRITEBYTECODE": "1"}
    if row.fails is not None:
        variables |= {"FAILS": row.fails, "PATH": f"{stand_ins}:{os.environ['PATH']}"}
    old_bytes = {}
    try:
        plant(top, row.planted, old_bytes)
        status, output = run(row.command, top, variables)
    except ValueError as error:
        return str(error)
    finally:
        put_back(old_bytes)
    missing = [it for it in row.reported if it not in output]
    if status != 0 and not missing:
        return ""
    return f"status {status}, not reported: {missing}, output:\n{output[-2000:]}"


def copy_to(folder):
    """Copies the repository, without what git ignores, and makes the stand-ins. Returns both."""
    listed = subprocess.run(["git", "ls-files", "-z", "--cached", "--others", "--exclude-standard"],
                            cwd=TOP, stdout=subprocess.PIPE, text=True, check=True).stdout
    top, stand_ins = Path(folder, "copy"), Path(folder, "stand_ins")
    for name in filter(None, listed.split("\0")):
        if (TOP / name).is_file():
            (top / name).parent.mkdir(parents=True, exist_ok=True)
            shutil.copy(TOP / name, top / name)
    subprocess.run(["git", "init", "-q", top], check=True)
    for name, text in STAND_INS.items():
        (stand_ins / name).parent.mkdir(parents=True, exist_ok=True)
        (stand_ins / name).write_text(text, "utf-8")
        (stand_ins / name).chmod(0o755)
    return top, stand_ins


def without_row():
    """Returns the scripts that no row runs."""
    commands = {word for row in ROWS for word in row.command.split()}
    return [it for it in SCRIPTS if it not in {*commands, *CALLED, "tests/teeth.py"}]


def main():
    words = sys.argv[1:]
    rows = [row for row in ROWS if not words or any(
        it in text for it in words for text in (row.command, *row.reported))]
    errors = [f"{script}: has no row" for script in without_row()]
    with tempfile.TemporaryDirectory() as folder:
        top, stand_ins = copy_to(folder)
        for row in rows:
            if tool := missing_tool(row):
                print(f"skipped: {row.command}: no {tool}")
            elif wrong := what_is_wrong(row, top, stand_ins):
                errors.append(f"{row.command}: {wrong}")
    print(*errors, f"tests/teeth.py: {len(rows)} rows, {len(errors)} errors", sep="\n")
    return 1 if errors or not rows else 0


if __name__ == "__main__":
    sys.exit(main())
