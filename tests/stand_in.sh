#!/bin/sh
# stand_in.sh LIBRARY [FUNCTION..]: writes a static library in which each function of
# include/sockdiag.h, and each FUNCTION, returns 0, for tests of what installs, links or packs a
# library. Needs a C compiler.
set -eu
header=$(dirname -- "$0")/../include/sockdiag.h
library=$1
shift
folder=$(mktemp -d)
trap 'rm -rf "$folder"' EXIT
{
    for name in $(grep -oE '\bsockdiag_[a-z0-9_]+\(' "$header" | tr -d '(' | sort -u) "$@"; do
        printf '.globl %s\n.type %s, @function\n%s:\n' "$name" "$name" "$name"
    done
    printf '    xor %%eax, %%eax\n    ret\n.section .note.GNU-stack, "", @progbits\n'
} >"$folder/zeros.s"
${CC:-cc} -c -o "$folder/zeros.o" "$folder/zeros.s"
rm -f "$library"
ar rcD "$library" "$folder/zeros.o"
