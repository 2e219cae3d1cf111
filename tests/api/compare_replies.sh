#!/bin/sh
# compare_replies.sh [COUNT [SEED]]: compares what the strict and the lenient calls of the C library
# return, and the errors with their fields, with what reply_reader.py reads from the same replies:
# a reply for each row of the table "Odd replies" of docs/C.md and each family, each reply of the
# kernels in tests/api/kernels, COUNT replies that it makes (100000 by default), and every prefix of
# each stored reply. Prints a line about the comparison, or the first lines that differ. c_api.sh
# runs it.
#
# The library is SOCKDIAG_LIBRARY, or the one that crates/sockdiag_c has built. CFLAGS are flags for
# the compiler, -fsanitize=address,undefined by default; CC is the compiler.
set -eu
count=${1:-100000} seed=${2:-1}
top=$(CDPATH='' cd -- "$(dirname -- "$0")/../.." && pwd)
library=${SOCKDIAG_LIBRARY-$top/crates/sockdiag_c/out/libsockdiag_c.a}
[ -f "$library" ] || { echo "compare_replies: no $library" >&2; exit 1; }
work=$(mktemp -d)
trap '[ $? = 0 ] || echo "$0: failed" >&2; rm -rf "$work"' EXIT
trap 'exit 130' INT TERM HUP

# CFLAGS are several words.
# shellcheck disable=SC2086
${CC:-cc} -std=c99 -g -O1 -Wall -Wextra -Wpedantic -Werror \
    ${CFLAGS--fsanitize=address,undefined -fno-sanitize-recover=all} -I"$top/include" \
    -o "$work/print_replies" "$top/tests/api/print_replies.c" "$library"

reader() {
    python3 "$top/tests/api/reply_reader.py" "$@"
}

reader odd >"$work/replies"
odd=$(wc -l <"$work/replies")
reader kernels >"$work/kernels"
kernels=$(wc -l <"$work/kernels")
cat "$work/kernels" >>"$work/replies"
reader cuts >>"$work/replies"
reader make "$count" "$seed" >>"$work/replies"
reader read <"$work/replies" >"$work/expected"
"$work/print_replies" <"$work/replies" >"$work/found"
if ! cmp -s "$work/expected" "$work/found"; then
    echo "compare_replies: the reader's lines (<) and those of the library (>) differ, seed $seed:"
    diff "$work/expected" "$work/found" | head -n 20
    exit 1
fi
rejected=$(grep -c '^error ' "$work/found" || true)
whole=$(grep -c ' first=0 ' "$work/found" || true)
total=$(wc -l <"$work/replies")
echo "compare_replies: $odd odd replies, $kernels of kernels, $count with seed $seed and" \
    "$((total - odd - kernels - count)) prefixes of stored ones, all equal: $whole accepted," \
    "$rejected without a header, $((total - whole - rejected)) with rejected attributes"
