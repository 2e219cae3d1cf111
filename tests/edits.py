#!/usr/bin/env python3
"""Tries the edits in tests/edits, over the libraries that `.ci/run` left in crates/*/out.

    tests/edits.py               tries all edits
    tests/edits.py FILE|CRATE..  tries these files of edits, and the edits of these crates
    tests/edits.py -             reads the lines of `rt ci`, and tries the edits with a line
                                 `# gate`: those of a crate as soon as the libraries that it depends
                                 on are proved
    tests/edits.py --list        prints what the prover checks for each edit

An edit that was rejected in this clone is not tried again while nothing that the prover reads for
it has changed: out/edits-rejected has a sum of the edit and of these files.

An edit makes code wrong. The prover checks the functions that it changes, and what they call, and
has to reject one of the changed functions: a function that is not proved only because it calls such
a function does not count. If an edit changes other text than functions, the functions of its module
are checked. A line `# only:` in the edit names other functions or modules. The status is 0 if the
prover rejects each edit. The edits of a crate in crates/*/must-fail are tried by `rt ci`.

Edits of a crate that change only bodies, of different functions, are tried in one check, unless
they have a line `# only: ..`: no proof depends on the body of another function. One that is not
rejected there is tried again by itself.
"""

import hashlib
import os
import re
import shutil
import subprocess
import sys
import tempfile
import threading
import time
from concurrent.futures import ThreadPoolExecutor
from functools import cache
from itertools import chain
from pathlib import Path

from surface import items, module_of, one_line
from tidy import TOP, edited_files, text_files

PARTS = ("src", "specs", "proofs")
REJECTED = TOP / "out/edits-rejected"
ONLY = "# only:"


def words_of(type_, parameters):
    """Returns the words of a type or trait as the prover joins them in a name: without lifetimes and
    parameters of the impl. A parameter by itself is `Any`."""
    type_ = re.sub(r"(?:\w+::)+", "", type_.split(" where ")[0])
    for sign, word in (("&", "Ref "), ("[", "Slice "), ("()", "Unit")):
        type_ = type_.replace(sign, word)
    words = re.findall(r"(?<!')\b[A-Za-z_]\w*", type_)
    if words and words[0] in parameters:
        words[0] = "Any"
    return "".join(word[0].upper() + word[1:] for word in words if word not in parameters)


def block_name(item):
    """Returns the name of an impl or a trait in the prover's names of its functions."""
    if item.kind == "trait":
        return item.name
    head, parameters = one_line(item.text[: item.start]).partition("impl")[2].strip(" {}"), []
    if head.startswith("<"):
        signs = (1 if it == "<" else -1 if it == ">" and before not in "-=" else 0
            for before, it in zip(f" {head}", head))
        depth, end = 0, 0
        for end, sign in enumerate(signs, 1):
            depth += sign
            if depth == 0:
                break
        parameters = re.findall(r"(?:^<|, )(?:const )?(\w+)", head[:end])
        head = head[end:].strip()
    trait, _, type_ = head.rpartition(" for ")
    return words_of(type_, parameters) + words_of(trait, parameters)


def functions_of(path, text, with_bodies=True):
    """Returns the text of each function of a file by the prover's name, such as
    `module::Type::function` or `module::TypeTrait::function`, and all other text by the name of the
    module. Without bodies, the text of a function ends before its body."""
    module, parts = module_of(path), {}
    for item in items(text):
        block = item.kind in ("impl", "trait")
        for it in item.members() if block else [item]:
            name = [module, block and block_name(item), it.name]
            name = "::".join(filter(None, name)) if it.kind == "fn" else module
            own = it.text if with_bodies or it.kind != "fn" else it.head
            parts[name] = parts.get(name, "") + own + "\n"
            parts[module] = parts.get(module, "") + it.attributes
        if block:
            parts[module] = parts.get(module, "") + item.attributes + item.text[: item.start]
    return parts


def name_in_crate(name, path, files):
    """Returns the name of a function with the module that declares its type, which may be another
    one than that of the file."""
    module = module_of(path)
    parts = name.removeprefix(module + "::").split("::")
    declared = re.compile(rf"(?m)^ *(?:pub(?:\(\w+\))? )?(?:struct|enum) {parts[0]}\b")
    if len(parts) == 1 or declared.search(files[path]):
        return name
    source = "/".join(path.split("/")[:3]) + "/"
    others = [module_of(other) for other in files
              if other.startswith(source) and declared.search(files[other])]
    return "::".join(filter(None, [*others, *parts])) if len(others) == 1 else name


def changed_names(changed, files):
    """Returns the functions and modules that differ in the changed files."""
    names = []
    for path, text in changed.items():
        before, after = functions_of(path, files[path]), functions_of(path, text)
        names += [name_in_crate(name, path, files) for name in after
                  if after[name] != before.get(name)]
    return names


def crate_of(name):
    """Returns the crate of an edit."""
    return Path(name).parent.name


def what_is_checked(name, files):
    """Returns the changed files of an edit, the functions and modules that the prover checks, and
    why the edit cannot be tried, or ""."""
    changed, wrong = edited_files(crate_of(name), files[name], files)
    only = re.findall(rf"(?m)^{ONLY} (.*)$", files[name])
    names = only[0].split() if only else changed_names(changed, files)
    if not wrong and (not names or "" in names):
        wrong = "changes the root of the crate: name a function in a line `# only:`"
    return changed, names, wrong


def all_edits(files):
    """Returns the names of all edits."""
    return [name for name in files if re.match(r"tests/edits/\w+/[^/]+\.edit$", name)]


@cache
def libraries_below(crate):
    """Returns the libraries of this repository that a crate depends on."""
    run = subprocess.run([TOP / "tools/libraries", crate], stdout=subprocess.PIPE, text=True,
                         check=True)
    return run.stdout.split()


def sum_of(name, files):
    """Returns a sum of an edit and of the files that the prover reads for it."""
    read = {f"crates/{crate}/{part}" for crate in [crate_of(name), *libraries_below(crate_of(name))]
            for part in PARTS}
    read |= {name, "crates.txt", "LOGIC"}
    found = hashlib.sha256()
    for path in sorted(files):
        if path in read or "/".join(path.split("/")[:3]) in read:
            found.update(f"{path}\0{files[path]}\0".encode())
    return f"{name} {found.hexdigest()}"


def rejected_before():
    """Returns the sums of the edits that were rejected before."""
    return REJECTED.read_text("utf-8").splitlines() if REJECTED.exists() else []


def is_rejected(crate, names, output):
    """Returns whether the prover rejected one of these functions, or one of these modules."""
    reason = "not proved|no proof: expected answers|no proof: it passes the block"
    # The name of a closure has the word `fn` before those of its function.
    either = "|".join("::".join("(?:fn::)?" + word for word in name.split("::")) for name in names)
    return bool(re.search(rf"(?m)^\w+ {crate}::(?:{either})\b.*: (?:{reason})", output))


def check(crate, folder, names):
    """Runs the prover on these functions and modules of a copy of a crate. What it proved before in
    the copy, and the edit does not change, it does not prove again."""
    words = [TOP / "tests/over_gate.sh", crate, "check", "--jobs", "1", "--incremental", "proved"]
    words += chain.from_iterable(("--only", only) for only in names)
    return subprocess.run(words, cwd=folder, stdout=subprocess.PIPE, stderr=subprocess.STDOUT,
                          text=True, errors="replace")


def try_edits(names, files, folder):
    """Returns those of these edits that the prover rejects in one check of a copy of their crate.
    The copy is afterwards as it was before. If there is only one and it is not rejected, prints
    what the prover said."""
    crate, changed, checked = crate_of(names[0]), {}, {}
    for name in names:
        new, checked[name], wrong = what_is_checked(name, {**files, **changed})
        if wrong:
            print(f"{name}: {wrong}")
            return []
        changed.update(new)
    begin = time.monotonic()
    for path, text in changed.items():
        (folder / Path(path).relative_to(f"crates/{crate}")).write_text(text, "utf-8")
    run = check(crate, folder, chain.from_iterable(checked.values()))
    for path in changed:
        (folder / Path(path).relative_to(f"crates/{crate}")).write_text(files[path], "utf-8")
    print(f"{crate}: {len(names)} edits, {time.monotonic() - begin:.0f} seconds", flush=True)
    rejected = [name for name in names
                if run.returncode == 1 and is_rejected(crate, checked[name], run.stdout)]
    REJECTED.parent.mkdir(exist_ok=True)
    with REJECTED.open("a", encoding="utf-8") as found:
        for name in rejected:
            print(f"{name}: rejected", flush=True)
            print(sum_of(name, files), file=found)
    if not rejected and len(names) == 1:
        said = re.sub(r"(?m)^(?:statements|logic) .*\n", "", run.stdout)[-2000:]
        print(f"{names[0]}: not rejected: {', '.join(checked[names[0]])}, status "
              f"{run.returncode}:\n{said}", flush=True)
    return rejected


def changes_only_bodies(changed, files):
    """Returns whether files differ from those that they change only in bodies of functions."""
    return all(path.endswith(".rt")
               and functions_of(path, text, False) == functions_of(path, files[path], False)
               for path, text in changed.items())


def bodies_of_different_functions(names, files):
    """Returns those of these edits that change only bodies, each of other functions."""
    found, functions, current = [], set(), dict(files)
    for name in names:
        changed, checked, wrong = what_is_checked(name, current)
        if (not wrong and ONLY not in files[name] and functions.isdisjoint(checked)
                and changes_only_bodies(changed, current)):
            found.append(name)
            functions.update(checked)
            current.update(changed)
    return found


def try_edits_of_crate(names, files):
    """Returns, for each of these edits of one crate, whether the prover rejects it."""
    crate = crate_of(names[0])
    before = rejected_before()
    rejected = [name for name in names if sum_of(name, files) in before]
    for name in rejected:
        print(f"{name}: was rejected before", flush=True)
    with tempfile.TemporaryDirectory() as copy:
        for part in PARTS:
            if (TOP / "crates" / crate / part).is_dir():
                shutil.copytree(TOP / "crates" / crate / part, Path(copy) / part)
        # What a check of the crate proved need not be proved again. The gate has none of it.
        proved = TOP / "crates" / crate / "out/incremental"
        if proved.is_dir():
            shutil.copytree(proved, Path(copy) / "proved")
        left = [name for name in names if name not in rejected]
        while len(together := bodies_of_different_functions(left, files)) > 1:
            rejected += try_edits(together, files, Path(copy))
            left = [name for name in left if name not in together]
        for name in names:
            if name not in rejected:
                rejected += try_edits([name], files, Path(copy))
    return [name in rejected for name in names]


def are_rejected(groups, files):
    """Tries the edits of each crate, as these groups come, and prints how many were rejected.
    Returns whether all were. Until the last group has come, at most two are tried at a time: with
    more, the proofs of `rt ci` take longer. Each needs more than 1 GB."""
    turns = threading.Semaphore(2)

    def try_in_turn(names):
        with turns:
            return try_edits_of_crate(names, files)

    with ThreadPoolExecutor(min(4, len(os.sched_getaffinity(0)))) as pool:
        tries = [pool.submit(try_in_turn, names) for names in groups]
        turns.release(2)
        rejected = [each for it in tries for each in it.result()]
    print(f"tests/edits.py: {len(rejected)} edits, {sum(rejected)} rejected")
    return bool(rejected) and all(rejected)


def groups_by_crate(names):
    """Returns the edits of each crate, of the crate with the most edits first."""
    crates = sorted({crate_of(name) for name in names})
    groups = [[name for name in names if crate_of(name) == crate] for crate in crates]
    return sorted(groups, key=len, reverse=True)


def groups_as_proved(lines, edits):
    """Yields the edits of each crate after the lines of `rt ci` about the libraries below it."""
    needed = {crate_of(name): set() for name in edits}
    for crate in needed:
        needed[crate] = set(libraries_below(crate))
    for line in chain([""], lines):
        proved = re.match(r"rt: (\w+) (?:proved$|is kept: )", line)
        for libraries in needed.values():
            libraries.discard(proved and proved[1])
        for crate in sorted(crate for crate, libraries in needed.items() if not libraries):
            del needed[crate]
            yield [name for name in edits if crate_of(name) == crate]


def try_those_of_gate(files):
    """Tries the edits with a line `# gate`. Returns whether each was tried and rejected."""
    edits = [name for name in all_edits(files) if re.search(r"(?m)^# gate$", files[name])]
    tried = []
    groups = (tried.extend(group) or group for group in groups_as_proved(sys.stdin, edits))
    succeeded = are_rejected(groups, files)
    for name in edits:
        if name not in tried:
            print(f"{name}: not tried, since a library was not proved")
    return succeeded and len(tried) == len(edits)


def libraries_are_current(names):
    """Proves the libraries below the crates of these edits, unless `rt ci` left them: then they
    have no stamp."""
    for library in sorted({below for name in names for below in libraries_below(crate_of(name))}):
        folder = TOP / "crates" / library
        built = folder / "out/rlib"
        if not (built / f"{library}.rlib").exists() or (built / "stamp").exists():
            subprocess.run(["rt", "lib"], cwd=folder, check=True, stdout=subprocess.DEVNULL)


def edits_of(words, edits):
    """Returns the edits that the words name, files or crates, or None if a word names none."""
    found = []
    for word in words:
        path = os.path.relpath(Path(word).resolve(), TOP)
        named = [name for name in edits if path == name or word == crate_of(name)]
        if not named:
            return None
        found += named
    return [*dict.fromkeys(found)]


def main():
    files = text_files()
    words = sys.argv[1:]
    if words == ["-"]:
        return 0 if try_those_of_gate(files) else 1
    if words == ["--list"]:
        for name in all_edits(files):
            _, names, wrong = what_is_checked(name, files)
            print(f"{name}: {wrong or ' '.join(names)}")
        return 0
    names = edits_of(words, all_edits(files)) if words else all_edits(files)
    if names is None:
        print("usage: tests/edits.py [-|--list|FILE..|CRATE..]", file=sys.stderr)
        return 2
    libraries_are_current(names)
    return 0 if are_rejected(groups_by_crate(names), files) else 1


if __name__ == "__main__":
    sys.exit(main())
