#!/usr/bin/env python3
"""Compares what tools/erase writes with the sources, token by token. Needs neither kit nor cargo.

This reads both sides in its own, cruder way: by brackets, without the rules of tools/erase. Besides
what only the prover reads (`pruned`), the code may differ only by the entries of CHANGES. Then it
checks that tools/erase writes the same files again, and that it refuses each form of REFUSED.
"""

import re
import subprocess
import sys
import tempfile
from collections import Counter
from importlib.machinery import SourceFileLoader
from pathlib import Path

TOP = Path(__file__).resolve().parent.parent
sys.dont_write_bytecode = True
sys.path.insert(0, str(TOP / "tools"))
eraser = SourceFileLoader("erase", str(TOP / "tools/erase")).load_module()

TOKEN = re.compile(
    r"""//[^\n]*|b?r\#".*?"\#|b?"(?:\\[\s\S]|[^"\\])*"|b?'(?:\\[^']+|[^'\\])'|'\w+|\w+|::|->|\S"""
)
OPEN, CLOSE = set("([{"), set(")]}")
CRATES, KIT = "|".join(eraser.CRATES), "|".join(eraser.KIT)
# Attributes of the prover, `no_mangle` and those of thiserror.
PROVER = {"tactic", "cycle", "unsafe", "error"}
# The changes of code, as patterns of tokens that are joined by spaces: the last tokens before, the
# tokens of the source, and those that they become. Each is tried only where the next tokens differ.
# OWN is the crate of the file.
CHANGES = [
    # A crate becomes a module.
    ("", "", f"crate :: kit ::(?= (?:{KIT}) )"),
    ("", "", f"crate ::(?= (?:{CRATES}) )"),
    ("crate ::", "", "OWN ::"),
    # The C ABI is in c_api.rs.
    ("pub", 'extern "C"(?= fn )', ""),
    ("pub bytes :", r"& 'a \[ u8 \]", "crate :: kit :: c :: Bytes < 'a >"),
    (" bytes :", r"& \[ \]", r"crate :: kit :: c :: Bytes :: of \( & \[ \] \)"),
    (" bytes", "", r": crate :: kit :: c :: Bytes :: of \( bytes \)"),
    # Each value can be dropped.
    ("", r"\+ Drop|Drop \+|: Drop", ""),
    ("where Self :", "Drop", "Sized"),
    ("where Self : Drop", ", ;", ";"),
    (r"derive \([\w ,]*", ", Drop|Drop ,", ""),
    ("", r"# \[ derive \( Drop \) \]", ""),
    # `clone` of a value that owns no memory returns it.
    (r"clone \( \)", r"\?", ""),
    (r"fn clone \( & self \) ->", "Result < Self , AllocError >", "Self"),
    (r"AllocError > \{", r"Ok \(", ""),
    ("", r"\)(?= \})", ""),
    # Rust has one allocator, which no argument, parameter, field or import names.
    (r"[({,]", r"_?alloc (?:: (?:Global|_) )?,|\$ alloc ,", ""),
    ("", r", _?alloc(?: : Global)?(?= \))", ""),
    (r"\(", r"_?alloc(?: : Global)?(?= \))|\$ alloc(?= \))", ""),
    (r"\( \$", r"alloc (?:: expr )?, \$", ""),
    (r"\(", r"self \. alloc ,", ""),
    (r"\(", r"\* \w+ \. allocator \( \) ,", ""),
    (" let", r"alloc = \* \w+ \. allocator \( \) ; let", ""),
    ("", r"let alloc = \* \w+ \. allocator \( \) ;", ""),
    (r"vec ! \[|format ! \(", "in alloc ;", ""),
    ("MadeWith", "< Global >", ""),
    ("", r"(?:# \[ inline \( always \) \] )?fn made_with \( _alloc : Global \) -> Self",
     "const MADE : Self ="),
    (r"-> Self \{ Nla :: Peer \( 0 \) \}|, send_queue : 0 , \} \) \}", "", r";(?= \})"),
    ("", "use std :: alloc :: Global ;", ""),
    ("std ::", "alloc :: Global ; use std ::", ""),
    ("std :: alloc ::", r"\{ AllocError , Global \}", "AllocError"),
    (r"std :: alloc :: \{ AllocError , AllocFailed", ", Global", ""),
    # Functions that allocate, and may fail unlike those of Rust with the same name.
    (r"\.", "push", "try_push"),
    (r"\.", "push_str", "try_push_str"),
    (r"\.", "insert", "try_insert"),
    (r"\.", "extend_from_slice", "try_extend_from_slice"),
    (r"\.", "resize", "try_resize"),
    (r"\.", "reserve", "try_reserve"),
    (r"\.", "reserve_exact", "try_reserve_exact"),
    ("(?:Vec|SmallVec) ::", "with_capacity", "with_reserved"),
    ("String ::", "from_str", "try_from_str"),
    ("Box ::", "new", "try_box"),
    ("Box ::", "into_inner", "unbox"),
    ("", "(?:vec|format)(?= ! )", "try_(?:vec|format)"),
    (r"fn|\.|::", r"clone(?= \( (?:\w+ , )?(?:& self , )?(?:alloc|rt \. alloc))", "try_clone"),
    # Texts of errors.
    ("", "use thiserror :: Error ;", ""),
    (r"derive \([\w ,]*", ", Error", ""),
    ("fn fmt", "< W : fmt :: Write >", ""),
    ("Formatter <", "W", "'_"),
    # Other names.
    ("=", "prove(?= ! )", "assert"),
    ("Ipv[46]Addr ::", "from_octets|from_segments", "from"),
    ("", "IpAddr ::(?= parse_ascii )", "crate :: kit :: std :: net ::"),
    ("", "", "core ::(?= str :: from_utf8 )"),
    ("", r"unsafe \{ str :: from_utf8_unchecked", "core :: str :: from_utf8"),
    (r"\( text_bytes \( bytes \) \)", r"\}", r'\. unwrap_or \( "" \)'),
]
# The changes of programs and tests: the runtime, and its allocator.
CHANGES_OF_PROGRAMS = [
    ("", "", "pub(?= fn main )"),
    (r"fn \w+ \(", "rt : HostRuntime", ""),
    (r"\{(?: let)?", "", "(?:let )?rt = HostRuntime ;(?: let)?"),
    (r"\.", "collect", "collect_in"),
    (r"[({,]", r"rt \. alloc \( \) ,", ""),
    (r"\( self \.", r"rt \. alloc \( \) , self \.", ""),
    ("", r", rt \. alloc \( \)(?= \))", ""),
    (r"\(", r"rt \. alloc \( \)(?= \))", ""),
    (r"vec ! \[|format ! \(", r"in rt \. alloc \( \) ;", ""),
]
PROGRAMS = {"sockdiag", "sslist"}
# The changes of tests alone.
CHANGES_OF_TESTS = [
    (r"(?:assert|panic) ! \(|expect \(", "(?:& )?rt [,;]", ""),
    (r"clone \( \)", r"\. expect \( (?:& )?rt , \S+ \)", ""),
    (r"\.", "repeat", "repeat_in"),
    (r"\.", "concat", "concat_in"),
    (r"\{ let", r"alloc = rt \. alloc \( \) ;", "rt = HostRuntime ;"),
]
ALL_CHANGES = [*CHANGES, *CHANGES_OF_PROGRAMS, *CHANGES_OF_TESTS]
REMOVED_IMPL = re.compile("Drop for GenericDump|Clone for (?:SocketName|NetlinkPayload)")
# The test that is left out.
LEFT_OUT_TEST = "a_record_buffer_is_printed"
# What the erased files begin with, after their documentation, except for the C library's root.
FORBID = "#![forbid(unsafe_code)]"
# What tools/erase adds: the heads of files, and what thiserror derives.
ADDED = re.compile(
    r"""^\#!\[forbid\(unsafe_code\)\]$
      | ^\#\[cfg\(feature\ =\ "c"\)\]\nmod\ c_api;$
      | ^use\ crate::kit::prelude::\*;$
      | ^impl\ core::fmt::Display\ for\ (?s:.*?)^impl\ core::error::Error\ for\ \w+\ \{\}$""",
    re.M | re.X,
)
# Sources, and what is left of them without the first token: not the comments above it, but the
# spaces at the ends of other lines.
REMOVED_FIRST = [("// of a\na\nb", "b\n"), ('a\n"b \n"', '"b \n"\n')]
# Forms that the script has to refuse.
REFUSED = [
    "fn f() { g().unwrap! {} }",
    "#[must_use]\nfn f() {}",
    "#[cfg(feature = \"a\")]\nfn f() {}",
    "#![no_std]\nfn f() {}",
    "#[derive(Hash)]\nstruct A;",
    "fn f() { let x = «data»; }",
    "fn f(x: &A) -> Result<A, E> { x.clone() }",
    "fn f(s: &mut String) { write!(s, \"\") }",
    "fn f(s: &mut String) { writeln!(s, \"\") }",
    "fn f(s: &mut String) { let a = match b { _ => write!(s, \"\") }; match a { _ => {} } }",
    "fn f() { for i in (250u8..) {} }",
    "fn f() { for i in 250u8.. {} }",
    "impl<T> A for &T {}",
    "fn f(x: u8) { u16::try_from(x) }",
    "fn f(x: u8) { g(x.try_into()) }",
    "impl<T> A<&T> { }",
    "impl<T: Clone> A for T {}",
    "impl Drop for A { fn drop(self) {} }",
    "fn f<T: Index<usize>>(t: T::Output) {}",
    "fn f() { iter::once(1) }",
    "fn f() { g(stringify!(a + b)) }",
    "macro_rules! f { ($s:stmt) => { $s } }",
    "const N: usize = std::mem::size_of::<A>();",
    "fn f(v: &[A]) -> A { A { ..v[7] } }",
    "fn f() { prove!(true) }",
    "fn f() -> Drop {}",
    "fn f(other: Global) {}",
    "fn f(rt: HostRuntime) { print!(rt; \"\") }",
    "fn f(i: I) -> Result<Vec<u8>, E> { i.collect(alloc) }",
    "fn f(alloc: Global) { let a = alloc; }",
    "fn f() { g(1 }",
    "use a::b",
    "fn f()\n    requires { a }",
    "fn f() { } requires a; {}",
]


def end_of(tokens, at):
    """Returns the index after the bracket that closes the one at the index."""
    depth = 0
    while True:
        depth += (tokens[at] in OPEN) - (tokens[at] in CLOSE)
        at += 1
        if depth == 0:
            return at


def pruned(tokens):
    """Returns the tokens without ghost items, clauses, attributes, `mod laws`, `impl Drop`, `impl
    Clone` of the types that are `Copy`, and the tests that are left out."""
    kept, at = [], 0
    while at < len(tokens):
        if tokens[at] == "ghost":
            if kept[-1:] == ["pub"]:
                kept.pop()
            ends = ";" if tokens[at + 1] == "use" else ";,"
            while tokens[at] not in ends and tokens[at] not in CLOSE:
                at = end_of(tokens, at) if tokens[at] in OPEN else at + 1
            at += tokens[at] in ends
        elif tokens[at] in ("requires", "ensures"):
            at = end_of(tokens, tokens.index("{", at))
        elif tokens[at] == "#" and {*tokens[at + 1 : at + 4]} & PROVER:
            at = end_of(tokens, tokens.index("[", at))
        elif tokens[at : at + 3] == ["mod", "laws", ";"]:
            if kept[-1:] == ["pub"]:
                kept.pop()
            at += 3
        elif tokens[at] == "impl" and REMOVED_IMPL.search(
                " ".join(tokens[at : tokens.index("{", at)])):
            at = end_of(tokens, tokens.index("{", at))
        elif tokens[at : at + 4] == ["#", "[", "test", "]"] and tokens[at + 5] == LEFT_OUT_TEST:
            at = end_of(tokens, tokens.index("{", at))
        else:
            kept.append(tokens[at])
            at += 1
    return kept


def tokens_of(text):
    return [token for token in TOKEN.findall(text) if not token.startswith("//")]


def laws_in(tokens):
    """Yields the names of the functions without code, whose contracts are properties."""
    for at in range(len(tokens)):
        if tokens[at : at + 2] == ["pub", "fn"] and tokens[at + 3 : at + 7] == ["(", ")", "{", "}"]:
            yield tokens[at + 2]


def without(tokens, laws):
    """Returns the tokens without these functions, and without their names in imports."""
    kept, at = [], 0
    while at < len(tokens):
        if tokens[at : at + 2] == ["pub", "fn"] and tokens[at + 2] in laws:
            at += 7
        elif tokens[at] in laws or tokens[at] == "," and tokens[at + 1] in laws:
            at += 2
        else:
            kept.append(tokens[at])
            at += 1
    return kept


def change_at(before, source, erased, changes):
    """Returns the change at the start of two lists of tokens, and how many of each it covers: one
    after which both go on with the same token, if there is one."""
    last, old, new = (" ".join(it) + " " for it in (before, source, erased))
    found = []
    for name, patterns in enumerate(changes):
        # An empty pattern is no token.
        follows, taken, made = (f"(?:{it}) " if it else "" for it in patterns)
        if re.search(f"{follows}$", last) and re.match(taken, old) and re.match(made, new):
            counts = (len(re.match(*it)[0].split()) for it in ((taken, old), (made, new)))
            found.append((name, *counts))
    same = [it for it in found if source[it[1] : it[1] + 1] == erased[it[2] : it[2] + 1]]
    return next(iter(same + found), None)


def differences(name, crate, source, erased, counts):
    """Yields where an erased file is not its source by the changes, and counts these."""
    changes = CHANGES
    if crate in PROGRAMS:
        changes = CHANGES + CHANGES_OF_PROGRAMS
    elif crate in eraser.TESTS:
        changes = ALL_CHANGES
    changes = [tuple(it.replace("OWN", crate) for it in change) for change in changes]
    i = j = 0
    while i < len(source) or j < len(erased):
        if source[i : i + 1] == erased[j : j + 1]:
            i, j = i + 1, j + 1
            continue
        parts = source[max(0, i - 12) : i], source[i : i + 20], erased[j : j + 20]
        change = change_at(*parts, changes)
        if not change:
            yield f"{name}: {' '.join(source[i:i + 8])} became {' '.join(erased[j:j + 8])}"
            return
        counts[change[0]] += 1
        i, j = i + change[1], j + change[2]


def run(out):
    subprocess.run([TOP / "tools/erase", out], check=True)
    return {path.relative_to(out): path.read_bytes() for path in out.rglob("*") if path.is_file()}


def lost_documentation(text, erased):
    """Yields the paragraphs at the head of a source that do not speak of contracts, and are lost."""
    for paragraph in re.match(r"(?://!.*\n)*", text)[0].split("//!\n"):
        if "ontract" not in paragraph and paragraph not in erased:
            yield f"lost documentation: {paragraph.splitlines()[0]}"


def broken_promises(written):
    """Yields what the hand-written and generated files of the package have to keep and do not."""
    profiles = written[Path("Cargo.toml")].decode().split("[profile.")[1:]
    if not all("\noverflow-checks = true\n" in profile for profile in profiles):
        yield "a profile of the package does not check overflows"
    c_api = written[Path("src", eraser.C_LIBRARY, "c_api.rs")].decode()
    for name, length in re.findall(r"memory::bytes\w*\((.*), (.*)\),", c_api):
        if length != f"{name}_length":
            yield f"c_api.rs: {length} is the length of {name}"


def source_errors():
    """Yields what is wrong with sources of which something is removed, and with their tokens."""
    for text, expected in REMOVED_FIRST:
        source = eraser.Source(text)
        source.remove(0, 0)
        if source.result() != expected:
            yield f"{text!r} without its first token is {source.result()!r}"
    if eraser.Source("a\t\r\nb").texts != ["a", "b"]:
        yield "white space is a token"
    try:
        eraser.Source("a\n\nb(\nc\n").closing(2)
        yield "a bracket that is not closed is closed"
    except SyntaxError as error:
        if str(error) != "line 3: the bracket is not closed":
            yield f"a bracket of line 3 that is not closed: {error}"


def accepted_forms():
    """Yields the forms that tools/erase has to refuse and accepts."""
    for text in REFUSED:
        try:
            eraser.erase(text + "\n", "netlink_core")
            yield f"tools/erase accepts {text}"
        except SyntaxError:
            pass
    source = eraser.Source("a b c")
    source.replace(0, 1, "d")
    source.replace(1, 2, "e")
    try:
        yield f"overlapping edits make {source.result()}"
    except SyntaxError:
        pass


def main():
    wrong, counts = [], Counter()
    with tempfile.TemporaryDirectory() as work:
        written, again = run(Path(work, "one")), run(Path(work, "two"))
    if written != again:
        wrong.append("tools/erase writes other files the second time")
    sources = [(*it, pruned(tokens_of(it[2]))) for it in eraser.sources()]
    laws = {law for *_, tokens in sources for law in laws_in(tokens)}
    for crate, path, text, tokens in sources:
        name = path.relative_to(TOP)
        erased = written[eraser.place_of(crate, path)].decode()
        is_root_of_c = crate == eraser.C_LIBRARY and path.stem == "lib"
        if (FORBID in erased.splitlines()) == is_root_of_c:
            wrong.append(f"{name}: unsafe code is not forbidden")
        wrong += (f"{name}: {it}" for it in lost_documentation(text, erased))
        sides = without(tokens, laws), tokens_of(ADDED.sub("", erased))
        wrong += differences(name, crate, *sides, counts)
    wrong += [*broken_promises(written), *source_errors(), *accepted_forms()]
    for name, (_, old, new) in enumerate(ALL_CHANGES):
        print(f"{counts[name]:4} times {old or 'nothing':.40} became {new or 'nothing':.40}")
    print(*wrong, f"tests/erased.py: {len(wrong)} errors", sep="\n")
    return 1 if wrong else 0


if __name__ == "__main__":
    sys.exit(main())
