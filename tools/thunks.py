"""The C ABI of the erased C library, for tools/erase: for each exported function one that takes
pointers, and calls it with references."""

import re

from rattle_source import Source

HEAD = '''//! The functions of include/sockdiag.h, written by tools/erase. Each one makes references
//! of the pointers that C passes, and calls the erased function of the same name.
#![allow(unsafe_code, clippy::missing_safety_doc)]

use super::*;
use crate::c_memory as memory;
use core::mem::MaybeUninit;
'''


def imported(s):
    """Returns the path of each name that the `use` items of a source import."""
    paths = {}

    def add(at, path):
        """Reads a tree of imports, and returns the index after it."""
        while s.at(at + 1, "::"):
            path, at = [*path, s.tokens[at].text], at + 2
        if s.at(at, "{"):
            end = s.closing(at)
            at += 1
            while at < end:
                at = add(at, path)
                at += s.at(at, ",")
            return end + 1
        last = at + 2 if s.at(at + 1, "as") else at
        paths[s.tokens[last].text] = "::".join([*path, s.tokens[at].text])
        return last + 1

    for at in range(len(s.tokens)):
        if s.at(at, "use") and not s.at(at - 1, "ghost") and s.tokens[at].kind == "word":
            add(at + 1, [])
    return paths


def path_of(name, module, paths):
    """Returns the path of a type or a constant of a module of sockdiag_c."""
    path = paths.get(name, f"crate::{module}::{name}")
    if path.startswith("crate::"):
        return "super::" + path.removeprefix("crate::")
    return "crate::" + path


def with_paths(kind, module, paths):
    """Returns a type in which each name of an item is a path."""
    kind = re.sub(r"'a ", "", kind).replace("<'a>", "<'static>")
    return re.sub(r"\b[A-Z]\w+", lambda it: path_of(it[0], module, paths), kind)


def exports(s):
    """Yields the name of each function for C, its parameters with their types, and its result."""
    for at in range(len(s.tokens)):
        if not s.at(at, "extern", '"C"', "fn"):
            continue
        first = at + 4
        while not s.at(first, "("):
            first += 1
        end = s.closing(first)
        inside = re.sub(r"\s+", " ", s.text[s.tokens[first].end : s.tokens[end].start])
        parameters = re.findall(r"(\w+): ([^,]+?) ?(?:,|$)", inside)
        yield s.tokens[at + 3].text, parameters, s.tokens[end + 2].text


def passed(name, kind):
    """Returns the parameters of C for a parameter of Rust, and the value that is made of them."""
    slices = {"&[u8]": ("*const u8", "bytes"), "&mut [u8]": ("*mut MaybeUninit<u8>", "bytes_mut")}
    if kind in slices:
        pointer, call = slices[kind]
        length = f"{name}_length"
        return [f"{name}: {pointer}", f"{length}: usize"], f"memory::{call}({name}, {length})"
    if kind.startswith("&mut "):
        return [f"{name}: *mut MaybeUninit<{kind[5:]}>"], f"memory::place({name})"
    if kind.startswith("&"):
        return [f"{name}: *const {kind[1:]}"], f"memory::value({name})"
    return [f"{name}: {kind}"], name


def thunk(name, parameters, result, module, paths):
    """Returns the function for C that calls an erased function."""
    both = [passed(word, with_paths(kind, module, paths)) for word, kind in parameters]
    taken = "".join(f"    {it},\n" for names, _ in both for it in names)
    values = "".join(f"        {value},\n" for _, value in both)
    head = f"(\n{taken})" if taken else "()"
    call = f"(\n{values}    )" if values else "()"
    return (
        f'\n#[no_mangle]\npub unsafe extern "C" fn {name}{head} -> {result} {{\n'
        f"    {module}::{name}{call}\n}}\n"
    )


def c_api(sources):
    """Returns the source with the functions for C, for these modules with their texts."""
    text = HEAD
    for module, source in sources:
        s = Source(source)
        text += "".join(thunk(*it, module, imported(s)) for it in exports(s))
    return text
