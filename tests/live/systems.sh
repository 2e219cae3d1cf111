#!/bin/sh
# systems.sh FOLDER: runs the programs and the C library of a release for x86-64 on other systems.
# It is not part of the gate: it needs root, a network, debootstrap, musl-gcc, ss and
# qemu-x86_64-static, and what the gate built (tools/build library sockdiag sslist). FOLDER keeps
# the systems, 200 MB each.
#
# - The four programs of a release, in minimal systems of Debian 11, 12 and 13 and in a folder that
#   has only the C library of musl: sockdiag and sslist print the stored lines, and socklist, which
#   runs sockdump and sslist, lists the same sockets as the ss of this machine. The systems have
#   libnss-db: a static program that has glibc look up a service would load this library, which is
#   of another glibc.
# - In the latter folder also sockdump and socklist as musl-gcc links them. It has a stand-in of
#   getent, which socklist runs, since musl has none.
# - The C programs of tests/api pass with the C library if musl-gcc links them, and on a Core 2 Duo,
#   which qemu emulates.
set -eu
[ $# = 1 ] || { echo 'usage: systems.sh FOLDER' >&2; exit 2; }
mkdir -p "$1"
systems=$(CDPATH='' cd -- "$1" && pwd)
CDPATH='' cd -- "$(dirname -- "$0")/../.."
library=$PWD/crates/sockdiag_c/out/libsockdiag_c.a
work=$(mktemp -d)
trap '[ $? = 0 ] || echo "$0: failed" >&2; rm -rf "$work"' EXIT

# Runs a command, and prints its output only if it fails.
quietly() {
    "$@" >"$work/log" 2>&1 || { cat "$work/log"; exit 1; }
}

# compile FOLDER COMPILER..: compiles both programs in C.
compile() {
    folder=$1
    shift
    mkdir "$folder"
    for program in sockdump socklist; do
        "$@" -std=c99 -O2 -DWITH_FILTERS -Iinclude -o "$folder/$program" "examples/$program.c" \
            "$library"
    done
    cp out/static/sockdiag out/static/sslist "$folder"
}

# run_in SYSTEM PROGRAMS: runs the programs of a folder in a system, and compares what they print.
# Names are those of this machine, as in ss.
run_in() {
    root=$systems/$1
    mkdir -p "$root/proc" "$root/run" "$root/etc" "$root/programs"
    cp "$2"/* "$root/programs"
    cp /etc/hosts /etc/services /etc/protocols "$root/etc"
    for program in sockdiag sslist; do
        chroot "$root" "/programs/$program" <"crates/$program/stdin" >"$work/found" 2>"$work/log"
        cmp "$work/found" "crates/$program/stdout"
    done
    cat >"$work/socklist" <<EOF
#!/bin/sh
cd '$root' && exec unshare -m sh -c 'mount --bind /proc proc && mount --rbind /run run &&
    exec chroot . /programs/socklist "\$@"' sh "\$@"
EOF
    chmod +x "$work/socklist"
    quietly tests/live/compare_socklist.py "$work/socklist"
    echo "systems: $1, programs of $(basename -- "$2"): stored lines; $(tail -n 1 "$work/log")"
}

compile "$work/release" cc -static
# musl-gcc does not search the kernel's headers.
mkdir "$work/headers"
ln -s /usr/include/linux /usr/include/asm-generic /usr/include/x86_64-linux-gnu/asm "$work/headers"
musl="musl-gcc -isystem $work/headers"
# shellcheck disable=SC2086 # Words.
compile "$work/musl" $musl
for suite in bullseye bookworm trixie; do
    if [ ! -d "$systems/$suite" ]; then
        quietly debootstrap --variant=minbase --include=libnss-db "$suite" "$systems/new"
        mv "$systems/new" "$systems/$suite"
    fi
    run_in "$suite" "$work/release"
done
mkdir -p "$systems/musl/lib" "$systems/musl/usr/bin"
cp -L /lib/ld-musl-x86_64.so.1 "$systems/musl/lib"
musl-gcc -o "$systems/musl/usr/bin/getent" -x c - <<'EOF'
#include <netdb.h>
#include <stdio.h>
#include <string.h>
int main(int count, char **words) {
    char text[NI_MAXHOST];
    const int by_name = count == 3 && strcmp(words[1], "ahosts") == 0;
    const struct addrinfo hints = {.ai_socktype = SOCK_STREAM};
    struct addrinfo *it;
    if (count != 3 || getaddrinfo(words[2], NULL, &hints, &it) != 0)
        return 2;
    for (; it != NULL; it = it->ai_next) {
        if (getnameinfo(it->ai_addr, it->ai_addrlen, text, sizeof text, NULL, 0,
                        by_name ? NI_NUMERICHOST : NI_NAMEREQD) != 0)
            return 2;
        printf("%s %s\n", by_name ? text : words[2], by_name ? "STREAM" : text);
    }
}
EOF
run_in musl "$work/release"
run_in musl "$work/musl"
CC=$musl RUN='' tests/api/call_library.sh "$library" "$work"
echo 'systems: C programs pass with the library and musl'
CC='cc -static' RUN='qemu-x86_64-static -cpu core2duo' tests/api/call_library.sh "$library" "$work"
echo 'systems: C programs pass with the library on a Core 2 Duo'
