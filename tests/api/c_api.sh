#!/bin/sh
# Builds the static library of include/sockdiag.h, and calls it from C: tests/api/c_api.c,
# c_values.c and c_messages.c compare what the calls return, also linked as C++, if the compiler
# supports it. If valgrind is installed, it runs these programs, and tests/api/cost.c, which counts
# the instructions of the calls. tests/api/fuzz_c.c calls them with changed replies, and
# tests/api/compare_replies.sh compares the lenient calls with an independent reader. Then runs the
# examples with the replies of other kernels, installs the library, builds the examples with it, and
# lists the sockets of this machine by list_sockets, if the kernel permits it. Needs the kit's rt, a
# C compiler and Python. The gate runs this script.
#
# With SOCKDIAG_LIBRARY, the path of a libsockdiag_c.a, it tests this library instead, which may
# also call bcmp(3) and abort(3), and installs nothing: erased.sh does so. With SSLIST_PROGRAM, the
# path of sslist, socklist runs it in place of the one that is built here.
set -eu
top=$(CDPATH='' cd -- "$(dirname -- "$0")/../.." && pwd)
work=$(mktemp -d)
trap '[ $? = 0 ] || echo "$0: failed" >&2; rm -rf "$work"' EXIT

library=$top/crates/sockdiag_c/out/libsockdiag_c.a calls='memcpy|memmove|memset'
if [ -n "${SOCKDIAG_LIBRARY-}" ]; then
    library=$SOCKDIAG_LIBRARY calls="$calls|bcmp|abort"
else
    echo "c_api: proving and building the library, if it is older than a source"
    "$top/tests/api/library.sh" >"$work/log" 2>&1 || { cat "$work/log" >&2; exit 1; }
fi

# The library does not allocate, and needs no more of the C library than its header says.
nm -u "$library" >"$work/names"
if sed -n 's/^ *U //p' "$work/names" | grep -vxE "$calls"; then
    echo "c_api: the library calls these functions" >&2
    exit 1
fi

# build_as LANGUAGE STANDARD NAME SOURCE FLAG..: builds a program with the library.
build_as() {
    language=$1 standard=$2 name=$3 source=$4
    shift 4
    ${CC:-cc} -std="$standard" -O2 -Wall -Wextra -Wpedantic -Werror "$@" -I"$top/include" \
        -o "$work/$name" -x "$language" "$source" -x none "$library"
}

# build NAME SOURCE FLAG..: builds a program in C with the library.
build() {
    build_as c c99 "$@"
}

# Runs a program. Under valgrind, if it is installed, it may access no memory that it does not have,
# and has to free all that it allocates.
run() {
    if command -v valgrind >/dev/null; then
        valgrind -q --leak-check=full --error-exitcode=1 "$1"
    else
        echo "c_api: skipped: memory errors and leaks: no valgrind" >&2
        "$1"
    fi
}

has_plus=true
${CC:-cc} -fsyntax-only -x c++ /dev/null 2>/dev/null || has_plus=false
"$has_plus" || echo "c_api: skipped: programs linked as C++: no C++ compiler"
for name in c_api c_values c_messages; do
    build "$name" "$top/tests/api/$name.c"
    run "$work/$name"
    if "$has_plus"; then
        build_as c++ c++11 "$name" "$top/tests/api/$name.c"
        run "$work/$name" >"$work/found"
        sed 's/$/, linked as C++/' "$work/found"
    fi
done
# A header and a library whose structs have four more fields, each with the other one that has not.
mkdir "$work/later"
sed '/^struct sockdiag_\([a-z]*_details\|vsock_header\) {/,/^};/s/^};/    uint32_t more[4];\n};/' \
    "$top/include/sockdiag.h" >"$work/later/sockdiag.h"
[ "$(grep -c 'uint32_t more' "$work/later/sockdiag.h")" = 8 ]
wrapped='-Wl,--wrap=sockdiag_fill_explain -Wl,--wrap=sockdiag_fill_parse_filter'
for family in unix inet netlink packet vsock xdp; do
    wrapped="$wrapped -Wl,--wrap=sockdiag_${family}_fill_details"
done
for header in -Wextra "-I$work/later -DLATER_HEADER"; do
    for linked in -Wextra "-DLATER_LIBRARY $wrapped"; do
        # shellcheck disable=SC2086 # Each word is a flag.
        build later_fields "$top/tests/api/later_fields.c" $header $linked
        run "$work/later_fields" >"$work/found"
    done
done
cat "$work/found"

if echo '#include <valgrind/callgrind.h>' | ${CC:-cc} -E - >/dev/null 2>&1; then
    build cost "$top/tests/api/cost.c"
    valgrind -q --tool=callgrind --callgrind-out-file="$work/count" "$work/cost" "$work/count"
else
    echo "c_api: skipped: cost.c: no valgrind"
fi

# A program that uses only constants and texts does not need the library.
printf '#include "sockdiag.h"\nint main(void) { return SOCKDIAG_OK; }\n' >"$work/alone.c"
${CC:-cc} -I"$top/include" -o "$work/alone" "$work/alone.c"

# The sanitizers check the tests and the examples, and what the library passes to functions like
# memcpy. With the last flag a variable that is not set has an odd value.
set --
echo 'int main(void) { return 0; }' >"$work/empty.c"
for flag in -fsanitize=address,undefined -fno-sanitize-recover=all \
    -ftrivial-auto-var-init=pattern; do
    ${CC:-cc} "$@" "$flag" -o "$work/empty" "$work/empty.c" 2>/dev/null || continue
    set -- "$@" "$flag"
done
build fuzz_c "$top/tests/api/fuzz_c.c" "$@"
"$work/fuzz_c" 20000 "$top/crates/sslist/stdin"

# The lenient calls, compared with an independent reader.
CFLAGS="$*" SOCKDIAG_LIBRARY="$library" "$top/tests/api/compare_replies.sh"

# The example with answers that a kernel seldom sends: an interrupted dump is requested again, and
# one that lost data on another socket, a rejected reply does not end a dump, and a rejected
# attribute does not hide its socket. Netlink and packet sockets are requested only without
# arguments.
build fake_list "$top/examples/list_sockets.c" "$top/tests/api/fake_kernel.c" "$@"
rm "$work/found"
for argument in '' -l 65535; do
    if timeout 60 "$work/fake_list" ${argument:+"$argument"} >>"$work/found" 2>>"$work/errors"; then
        echo "c_api: list_sockets $argument: status 0" >&2
        exit 1
    fi
done
sort "$work/errors" | uniq -c | sed 's/^ *//' >>"$work/found"
diff "$work/found" /dev/fd/3 3<<'END'
unix type 1 state 7 inode 2
unix type 1 state 7 inode 2 rejected 5 (buffer of too few bytes)
unix type 1 state 10 inode 2
unix type 1 state 10 inode 2 rejected 5 (buffer of too few bytes)
unix type 1 state 7 inode 2
unix type 1 state 7 inode 2 rejected 5 (buffer of too few bytes)
6 list_sockets: mptcp: No such file or directory
1 list_sockets: netlink: No such file or directory
1 list_sockets: packet: No such file or directory
5 list_sockets: tcp: No such file or directory
1 list_sockets: tcp: invalid reply: buffer of too few bytes
6 list_sockets: udp: No such file or directory
2 list_sockets: unix: invalid reply: buffer of too few bytes
END

# Wrong arguments, which are separated by slashes.
for arguments in 0 65536 443x -x '' ' 5' +80 -1 -18446744073709551536 18446744073709551696 5_0 \
    443/-l -l/-l -l/443/444 -l/+80; do
    status=0
    (
        IFS=/
        # shellcheck disable=SC2086 # Each part is an argument.
        exec timeout 60 "$work/fake_list" ${arguments:-''} >"$work/found" 2>"$work/errors"
    ) || status=$?
    if [ "$status" -ne 2 ] || [ -s "$work/found" ] ||
        ! grep -q '^usage: .* from 1 to 65535$' "$work/errors"; then
        echo "c_api: list_sockets $arguments: status $status" >&2
        exit 1
    fi
done

# The examples with the replies of old and new kernels, made by hand. The library that the tests
# preload precedes the runtime of a sanitizer, which it permits if it is told so.
mkdir "$work/checked"
for name in list_sockets list_rtt sockdump; do
    build "checked/$name" "$top/examples/$name.c" -DWITH_FILTERS "$@"
done
(
    export ASAN_OPTIONS=verify_asan_link_order=0
    "$top/tests/api/kernels.py" "$work/checked/list_sockets" "$work/checked/list_rtt"
    "$top/tests/api/sockdump.py" "$work/checked/sockdump"
)
# The sanitizers do not permit the limit of memory that a test of socklist sets. There too a
# variable that is not set has an odd value, if the compiler has the flag.
odd=
case $* in *-ftrivial-auto-var-init=pattern*) odd=-ftrivial-auto-var-init=pattern ;; esac

# As an author of a program does: installs the library, and builds with the shared library that
# pkg-config finds. Without pkg-config or make, builds with the static library.
[ -n "${SOCKDIAG_LIBRARY-}" ] || "$top/tools/install" "$work/prefix" >/dev/null
if [ -z "${SOCKDIAG_LIBRARY-}" ] && command -v pkg-config >/dev/null &&
    command -v make >/dev/null; then
    cp "$top/examples/Makefile" "$top/examples/"*.[ch] "$work"
    PKG_CONFIG_PATH="$work/prefix/lib/pkgconfig" make -s -C "$work" \
        CFLAGS="-O2 -Wall -Wextra -pedantic $odd"
else
    for name in list_sockets list_rtt sockdump socklist; do
        # shellcheck disable=SC2086 # No word if there is no flag.
        build "$name" "$top/examples/$name.c" -DWITH_FILTERS $odd
    done
fi
sslist=${SSLIST_PROGRAM-$top/crates/sslist/out/sslist}
if [ -x "$sslist" ]; then
    LD_LIBRARY_PATH="$work/prefix/lib" \
        "$top/tests/api/socklist.py" "$work/socklist" "$work/sockdump" "$sslist"
else
    echo "c_api: skipped: socklist: no $sslist" >&2
fi
if LD_LIBRARY_PATH="$work/prefix/lib" "$work/list_sockets" >"$work/sockets" 2>"$work/errors"; then
    echo "c_api: list_sockets: $(wc -l <"$work/sockets") sockets, beginning with:"
    head -n 5 "$work/sockets"
else
    echo "c_api: list_sockets failed: $(cat "$work/errors")"
fi
