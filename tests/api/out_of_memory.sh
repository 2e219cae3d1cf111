#!/bin/sh
# out_of_memory.sh TESTS SOCKDIAG SSLIST: runs tests of the built sock_diag_tests and both programs,
# and makes allocations fail: in the first run the first allocation, in the second run the second,
# and so on, until a run ends before its failing allocation. Then it repeats all runs, each with all
# later allocations failing too.
#
# The tests `out_of_memory` of sock_diag_tests check each run of the readers, of `canonical`, of
# `deserialize` and of each `clone`. If an allocation fails while a program answers its input, its
# output has to be a prefix of the full output that consists of whole lines, its exit status 1, and
# its error message "out of memory". Some runs can do without some memory, as for a buffer: then
# output and status are as always.
#
# A test that drops dumps also runs under valgrind, if it is installed: it must not leak.
#
# The gate runs it, with what `rt ci` built. It preloads a library that replaces malloc, so it needs
# a C compiler and a loader that supports LD_PRELOAD.
set -eu
if [ $# != 3 ]; then
    echo "usage: tests/api/out_of_memory.sh TESTS SOCKDIAG SSLIST" >&2
    exit 2
fi
tests=$(realpath "$1") sockdiag=$(realpath "$2") sslist=$(realpath "$3")
top=$(CDPATH='' cd -- "$(dirname -- "$0")/../.." && pwd)
work=$(mktemp -d)
trap '[ $? = 0 ] || echo "$0: failed" >&2; rm -rf "$work"' EXIT

${CC:-cc} -shared -fPIC -O1 -o "$work/fail_malloc.so" "$top/tests/api/fail_malloc.c"

fail() {
    echo "out_of_memory: $what: allocations $first to $last fail: $1" >&2
    cat "$work/errors" >&2
    exit 1
}

# Runs a command in which the allocations from $first to $last fail.
run_refused() {
    status=0
    LD_PRELOAD=$work/fail_malloc.so REFUSE_FIRST=$first REFUSE_LAST=$last "$@" \
        <"$work/in" >"$work/out" 2>"$work/errors" || status=$?
}

# Runs a command once for each of its allocations, and checks each run by the function `look`.
sweep() {
    for rest in 0 1000000; do
        first=0
        while :; do
            first=$((first + 1))
            last=$((first + rest))
            run_refused "$@"
            look
            grep -q '^refused$' "$work/errors" || break
        done
    done
    echo "$what: each of $((first - 1)) allocations failed, by itself and with all later ones"
}

: >"$work/in"
look() { [ "$status" -eq 0 ] || fail "the test failed"; }
listed=$("$tests" --list | sed -n 's/^\(.*::out_of_memory::.*\): test$/\1/p')
[ -n "$listed" ] || { echo "out_of_memory: $tests lists no such test" >&2; exit 1; }
for what in $listed; do
    sweep "$tests" "$what"
done

# No clause excludes a leak. This test drops dumps with owned replies of both families, with
# attributes that are stored inline and with more.
what=port::sizes::dumps_of_one_message
if command -v valgrind >/dev/null; then
    valgrind -q --leak-check=full --error-exitcode=1 "$tests" "$what" >"$work/out" 2>&1 || {
        echo "out_of_memory: $what: under valgrind:" >&2
        cat "$work/out" >&2
        exit 1
    }
    echo "$what: no leak"
else
    echo "out_of_memory: skipped: $what: no valgrind"
fi

# Compares the run of a program with the one that had all memory. $without_all is whether the
# program can do without some memory.
look() {
    if [ "$status" -eq "$usual" ] && cmp -s "$work/full" "$work/out"; then
        "$without_all" || ! grep -q '^refused$' "$work/errors" || fail "no error"
        return
    fi
    grep -q '^refused$' "$work/errors" || fail "the output differs from the full output"
    [ "$status" -eq 1 ] || fail "exit status $status, expected 1"
    grep -Eq "^$program: (.*: )?out of memory$" "$work/errors" ||
        fail "standard error does not report out of memory"
    head -c "$(wc -c <"$work/out")" "$work/full" | cmp -s - "$work/out" ||
        fail "the output is not a prefix"
    [ ! -s "$work/out" ] || [ "$(tail -c 1 "$work/out" | wc -l)" -eq 1 ] ||
        fail "the last line is incomplete"
}

# try WITHOUT_ALL PROGRAM ARGUMENT..: compares the runs of a program with $work/in as input.
try() {
    without_all=$1
    shift
    program=$(basename "$1") what=$* usual=0
    "$@" <"$work/in" >"$work/full" 2>/dev/null || usual=$?
    sweep "$@"
}

cp "$top/crates/sockdiag/stdin" "$work/in"
try false "$sockdiag"
echo 'unix 00' >"$work/in"
try true "$sockdiag" --strict
cp "$top/crates/sslist/stdin" "$work/in"
try true "$sslist" -t
try true "$sslist" --json
try true "$sslist" -t "$work/in"

# Counts the allocations for 10,000 further lines, after the buffers have grown. At most two for
# each line are allowed.
lines() {
    awk -v n="$1" 'BEGIN {
        for (i = 0; i < n; i++)
            printf "unixreq 010000000204000034120000%02x000000ffffffffffffffff\n", i % 64
    }'
}

requests() {
    lines "$1" |
        LD_PRELOAD=$work/fail_malloc.so REQUEST_COUNT=$work/count "$sockdiag" >/dev/null
    cat "$work/count"
}

few=$(requests 1000)
many=$(requests 11000)
if [ $((many - few)) -gt 20000 ]; then
    echo "out_of_memory: $((many - few)) allocations for 10000 lines, expected at most 20000" >&2
    exit 1
fi
echo "$((many - few)) allocations for 10000 lines"
