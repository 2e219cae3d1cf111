#!/bin/sh
# Measures the time to parse a reply, the time to parse and serialize it, and the number of
# allocations that parsing makes. Needs the kit's rt and cc, and proves what is not proved yet
# (library.sh).
set -eu
CDPATH='' cd -- "$(dirname -- "$0")/.."
. bench/library.sh
# The driver counts allocations: with --wrap the linker redirects the calls of these functions to
# it.
cc -O2 -Wall -Wextra -Wl,--wrap=malloc,--wrap=calloc,--wrap=realloc -o "$made/replies" \
    bench/replies/driver.c "$library" "$kit_library"
"$made/replies"
