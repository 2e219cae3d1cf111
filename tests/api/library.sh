#!/bin/sh
# library.sh [--of-gate]: builds the C library, crates/sockdiag_c/out/libsockdiag_c.a, unless it is
# newer than every source. Its code runs on each x86-64 processor.
#
# Without an argument it runs `rt lib`, which proves each library that it cannot use. The gate calls
# it with --of-gate: the script then proves sockdiag_c over the libraries that `rt ci` left
# (tools/build), and compiles it. If `rt ci` has put back what was built before it, `rt lib`
# is quick.
set -eu
trap '[ $? = 0 ] || echo "$0: failed" >&2' EXIT
CDPATH='' cd -- "$(dirname -- "$0")/../.."
crate=crates/sockdiag_c
library=$crate/out/libsockdiag_c.a

# Returns whether the libraries are those that `rt ci` leaves: the others have a stamp.
are_of_gate() {
    for name in $(tools/libraries sockdiag_c); do
        if [ ! -d "crates/$name/out/rlib/$name.rlib" ] || [ -e "crates/$name/out/rlib/stamp" ]; then
            return 1
        fi
    done
}

if tools/is-current "$library" sockdiag_c; then exit 0; fi
if [ "${1-}" != --of-gate ] || ! are_of_gate; then
    cd "$crate"
    rt lib --cpu x86-64
    exit
fi

tools/build library
