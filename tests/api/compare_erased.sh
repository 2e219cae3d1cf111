#!/bin/sh
# Compares the plain Rust that erased.sh built with what is proved: the answers of the program
# sockdiag to many lines, the lists of sslist of many captures, and each function of the C library
# with 20,000 inputs. The gate runs this script, with what it built.
set -eu
top=$(CDPATH='' cd -- "$(dirname -- "$0")/../.." && pwd)
work=$(mktemp -d)
trap '[ $? = 0 ] || echo "$0: failed" >&2; rm -rf "$work"' EXIT
built=$top/out/erased/target/release

"$top/tests/api/reply_reader.py" make 100000 1 >"$work/replies"
sed -n '
    /^unix /{ p; s/^unix /unixview /p; s/^unixview /message /p; }
    /^inet /{ p; s/^inet /message /p; }' "$work/replies" >"$work/lines"
"$top/crates/sockdiag/out/sockdiag" <"$work/lines" >"$work/proved"
"$built/sockdiag" <"$work/lines" >"$work/erased"
cmp "$work/proved" "$work/erased" ||
    { echo "erased: the answers to many lines differ" >&2; exit 1; }
echo "erased: the answers to $(wc -l <"$work/lines") lines are equal"

"$top/tests/api/compare_listers.py" "$top/crates/sslist/out/sslist" "$built/sslist"

${CC:-cc} -shared -o "$work/proved.so" -Wl,--whole-archive \
    "$top/crates/sockdiag_c/out/libsockdiag_c.a" -Wl,--no-whole-archive
"$top/tests/api/compare_libraries.py" "$work/proved.so" "$built/libsockdiag_c.so"
