#!/bin/sh
# builds.sh: tests what tools/build built, which the gate and a release have in addition:
#
# - The static programs print the stored lines, also in a folder without any other file (as root),
#   and on a processor that has no more than the first 64-bit ones (by qemu).
# - The C library by Rattle's own compiler answers as the one by LLVM: each function, with 20,000
#   inputs (compare_libraries.py), and 100,000 replies, which an independent reader reads too.
# - The C programs of this folder pass with the C library for arm64, which is run by qemu.
#
# What is not built, or cannot be run, is skipped. The gate runs this script.
set -eu
top=$(CDPATH='' cd -- "$(dirname -- "$0")/../.." && pwd)
work=$(mktemp -d)
trap '[ $? = 0 ] || echo "$0: failed" >&2; rm -rf "$work"' EXIT

# has PROGRAM|FILE..: returns whether all exist, or says which one is missing.
has() {
    for it; do
        [ -e "$it" ] || command -v "$it" >/dev/null || { echo "builds: skipped: no $it"; return 1; }
    done
}

# same_lines HOW COMMAND..: compares what a program prints of its stored input.
same_lines() {
    how=$1
    shift
    "$@" <"$top/crates/$program/stdin" >"$work/found" 2>/dev/null
    cmp "$work/found" "$top/crates/$program/stdout"
    echo "builds: $program prints the stored lines $how"
}

for program in sockdiag sslist; do
    built=$top/out/static/$program
    has "$built" || continue
    mkdir -p "$work/empty"
    cp "$built" "$work/empty"
    if [ "$(id -u)" -eq 0 ]; then
        same_lines 'where there is no other file' chroot "$work/empty" "/$program"
    fi
    if has qemu-x86_64-static; then
        same_lines 'on a Core 2 Duo' qemu-x86_64-static -cpu core2duo "$built"
    fi
done

proved=$top/crates/sockdiag_c/out/libsockdiag_c.a
other=$top/out/rattle/libsockdiag_c.a
if has "$proved" "$other"; then
    for library in "$proved" "$other"; do
        ${CC:-cc} -shared -o "$work/$(echo "$library" | cksum | tr ' ' _).so" \
            -Wl,--whole-archive "$library" -Wl,--no-whole-archive
    done
    "$top/tests/api/compare_libraries.py" "$work"/*.so
    CC=${CC:-cc} RUN='' "$top/tests/api/call_library.sh" "$other" "$work"
    echo "builds: the library by Rattle's own compiler answers as the one by LLVM"
fi

library=$top/out/arm64/libsockdiag_c.a
if has "$library" aarch64-linux-gnu-gcc qemu-aarch64-static; then
    CC='aarch64-linux-gnu-gcc -static' RUN=qemu-aarch64-static "$top/tests/api/call_library.sh" \
        "$library" "$work"
    echo "builds: C programs pass with the library for arm64"
fi
