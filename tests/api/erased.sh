#!/bin/sh
# Tests the plain Rust that tools/erase makes of the sources, in out/erased: builds it by cargo,
# without a heap and with one, has tools/install install what cargo built, runs its tests and those
# of both programs, has it answer the stored lines of the program sockdiag, and has c_api.sh test
# its C library. Needs cargo and a C compiler, and no kit. The gate runs this script, and then
# compare_erased.sh.
set -eu
top=$(CDPATH='' cd -- "$(dirname -- "$0")/../.." && pwd)
work=$(mktemp -d)
# The tests of the C library run in the background, and write to this folder.
trap '[ $? = 0 ] || echo "$0: failed" >&2; wait; rm -rf "$work"' EXIT
trap 'exit 130' INT TERM HUP

# Runs a command, and prints its output only if it fails.
quiet() {
    "$@" >"$work/log" 2>&1 || { cat "$work/log" >&2; exit 1; }
}

# Tests the C library. Cargo adds objects of Rust's own library, of which the one of the library
# needs nothing.
test_c_library() {
    mkdir "$work/object" "$work/library"
    (cd "$work/object" && ar x "$built/libsockdiag_c.a" &&
        ar rcs "$work/library/libsockdiag_c.a" sockdiag_c*.o)
    SSLIST_PROGRAM=$built/sslist SOCKDIAG_LIBRARY=$work/library/libsockdiag_c.a \
        "$top/tests/api/c_api.sh"
}

rm -rf "$top/out/erased"
"$top/tools/erase" "$top/out/erased"
cd "$top/out/erased"
unset CARGO_TARGET_DIR
quiet cargo build --release --offline
quiet cargo build --release --offline --package sockdiag_c
built=$top/out/erased/target/release
(test_c_library) >"$work/c_library" 2>&1 &
c_library=$!
quiet env BUILT="$built" "$top/tools/install" "$work/prefix"
quiet cargo test --offline --no-default-features
quiet cargo test --offline --features c
sed -n 's/^test result: ok. \([0-9]* passed\).*/erased: \1/p' "$work/log" | sed -n 1p
answer=$built/sockdiag

quiet env RUSTDOCFLAGS='-D warnings' cargo doc --offline --no-deps
# clippy also reports functions of Rust's library that are newer than the package's `rust-version`.
if cargo clippy --version >/dev/null 2>&1; then
    quiet cargo clippy --offline --features c -- -D warnings
    quiet cargo clippy --offline --no-default-features -- -D warnings
else
    echo "erased: skipped: the minimal version of Rust: no cargo clippy"
fi

"$answer" <"$top/crates/sockdiag/stdin" >"$work/answers"
cmp "$work/answers" "$top/crates/sockdiag/stdout" ||
    { echo "erased: the answers to crates/sockdiag/stdin differ" >&2; exit 1; }
echo "erased: the answers to $(wc -l <"$work/answers") lines are equal"

# The tests of the two programs. They run each option, and captures that are made for it.
quiet "$top/tests/captures.py" "$built/sslist"
sed -n 's/.*: \([0-9]* runs\), .*/erased: the lister passed \1 over captures/p' "$work/log"
quiet "$top/tests/programs.py" --rust "$answer" "$built/sslist"

# The example requests sockets by the module `kernel`.
quiet cargo build --release --offline --example list_sockets
"$top/tests/api/kernels.py" --rust "$built/examples/list_sockets"
if "$built/examples/list_sockets" >"$work/sockets" 2>"$work/errors"; then
    echo "erased: list_sockets: $(wc -l <"$work/sockets") sockets, beginning with:"
    head -n 5 "$work/sockets"
else
    echo "erased: list_sockets failed: $(cat "$work/errors")"
fi

# The library is the same, byte for byte, if it is built in another folder.
"$top/tools/erase" "$work/other"
(cd "$work/other" && quiet cargo build --release --offline --package sockdiag_c)
cmp "$built/libsockdiag_c.so" "$work/other/target/release/libsockdiag_c.so"

# The places where a broken precondition of a function would end the process. With this version of
# Rust there must not be more.
objdump -d --no-show-raw-insn "$built/libsockdiag_c.so" >"$work/code"
panics=$(grep -cE 'call.*(panic|_fail)' "$work/code") || :
echo "erased: the C library calls a function that panics at $panics places"
case $(rustc --version) in 'rustc 1.95.'*) [ "$panics" -le 103 ] || exit 1 ;; esac
grep -q 'call.*overflow' "$work/code" || { echo "erased: overflow is not checked" >&2; exit 1; }

wait "$c_library" || { cat "$work/c_library" >&2; exit 1; }
cat "$work/c_library"
