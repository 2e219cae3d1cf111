#!/bin/sh
# Tests tools/install in a copy of a release, with programs and a library that are made here: which
# files it installs, with which modes, which paths it refuses, what it replaces and removes, and
# that it leaves nothing if it fails. Then builds the example with the installed library, as
# INSTALL.md describes. Takes seconds, and needs no kit. Without a C compiler, make and pkg-config
# it is skipped.
set -eu
CDPATH='' cd -- "$(dirname -- "$0")/.."
for command in "${CC:=cc}" make pkg-config; do
    command -v "$command" >/dev/null || { echo "skipped: tools/install: no $command"; exit 0; }
done
work=$(mktemp -d)
trap '[ $? = 0 ] || echo "$0: failed" >&2; rm -rf "$work"' EXIT
tree="$work/a tree, and more"
install=$work/link
version=$(cat VERSION)
unset CFLAGS LDFLAGS
mkdir -p "$tree/bin" "$tree/lib" "$tree/tools" "$work/home" "$work/temporary"
export TMPDIR="$work/temporary" HOME="$work/home"

fail() {
    echo "install: failed: $1" >&2
    exit 1
}

# fails STATUS WHAT COMMAND..: runs a command, which has to fail with this status, to install
# nothing in $work/none, and to leave no temporary file.
fails() {
    expected=$1 what=$2
    shift 2
    status=0
    "$@" >"$work/out" 2>&1 || status=$?
    [ "$status" = "$expected" ] || fail "$what: status $status"
    [ ! -e "$work/none" ] || fail "$what: files are installed"
    [ -z "$(ls -A "$TMPDIR")" ] || fail "$what: temporary files are left"
}

# installed FOLDER: prints mode and path of each file and folder, and where each link leads.
installed() {
    (cd "$1" && find . -mindepth 1 -printf '%m %P %l\n' | sed 's/ $//' | sort -k 2)
}

# A release: its functions return 0. The header declares all of them but one.
cp VERSION "$tree"
cp -R examples include man "$tree"
cp tools/install tools/libsockdiag.map tools/is-current tools/libraries "$tree/tools"
for program in sockdiag sslist sockdump socklist; do
    echo '#!/bin/sh' >"$tree/bin/$program"
done
tests/stand_in.sh "$tree/lib/libsockdiag.a"
echo 'int of_no_header(void) { return 0; }' | $CC -x c -c -o "$work/other.o" -
ar r "$tree/lib/libsockdiag.a" "$work/other.o"
ln -s "$tree/tools/install" "$install"

# Arguments, a compiler that fails, and signals.
"$install" --help >"$work/out" || fail "the status of --help"
grep -q '^usage: ' "$work/out" || fail "--help"
fails 2 "an empty prefix" "$install" ''
fails 2 "an unknown option" "$install" --prefix
fails 2 "two prefixes" "$install" "$work/none" "$work/none"
for folder in /lib .. ../lib lib/.. lib/../../lib; do
    fails 2 "the LIBDIR $folder" env LIBDIR=$folder "$install" "$work/none"
    fails 2 "--uninstall, $folder" env LIBDIR=$folder "$install" --uninstall "$work/none"
done
# Characters that would change the meaning of a line of sockdiag.pc.
for character in '"' '#' '$' '(' ')' ':' "\\" '`' '
' "$(printf '\t')" ' /'; do
    fails 2 "the prefix a${character}b" "$install" "$work/none/a${character}b"
    fails 2 "the LIBDIR a${character}b" env "LIBDIR=a${character}b" "$install" "$work/none"
done
fails 1 "a compiler that fails" env CC=false "$install" "$work/none"
fails 1 "no compiler" env CC="$work/none/cc" "$install" "$work/none"
grep -q 'SHARED=no' "$work/out" || fail "no compiler: $(cat "$work/out")"
for signal in INT TERM HUP; do
    # shellcheck disable=SC2016
    printf '#!/bin/sh\nkill -%s $PPID\n' "$signal" >"$work/killer"
    chmod +x "$work/killer"
    # A script that is started in the background ignores SIGINT.
    fails 130 "$signal" env --default-signal="$signal" CC="$work/killer" "$install" "$work/none"
done

# The same files, whatever the umask is. tests/release.sh lists them.
prefix="$work/a prefix"
(umask 077 && "$install" "$prefix") >"$work/out"
(umask 022 && "$tree/tools/install" "$work/plain") >/dev/null
installed "$work/plain" >"$work/expected"
installed "$prefix" | diff "$work/expected" - || fail "the umask or the link matters"
[ -z "$(find "$prefix" ! -perm 644 ! -perm 755 ! -type l)" ] || fail "modes"
if nm -D "$prefix/lib/libsockdiag.so" | grep -q of_no_header; then
    fail "the shared library exports a function that the header lacks"
fi
grep -q "LD_LIBRARY_PATH=$prefix/lib" "$work/out" || fail "the hint for another folder"
grep -q "PKG_CONFIG_PATH=$prefix/lib/pkgconfig" "$work/out" || fail "the hint for pkg-config"
PKG_CONFIG_PATH="/none:$prefix/lib/pkgconfig" "$install" "$prefix/" >"$work/out"
if grep -q pkg-config "$work/out"; then fail "the hint for a folder of pkg-config"; fi
[ "$(PKG_CONFIG_PATH="$prefix/lib/pkgconfig" pkg-config --modversion sockdiag)" = "$version" ] ||
    fail "the version that pkg-config prints"
[ "$(tail -n 1 "$work/out")" = "tools/install: installed sockdiag $version in $prefix" ] ||
    fail "the last line"

# All other characters can be in a path: the shell reads it back from what pkg-config prints.
odd=$work/$(printf '%s\303\251' "a !%&'*+,-.;<=>?@[]^_{|}~")
SHARED=no LIBDIR='l b|&' "$install" "$odd" >/dev/null
PKG_CONFIG_PATH="$odd/l b|&/pkgconfig" pkg-config --cflags --libs sockdiag >"$work/out"
eval "printf '%s\\n' $(cat "$work/out")" >"$work/read"
printf '%s\n' "-I$odd/include" "-L$odd/l b|&" -lsockdiag | diff - "$work/read" ||
    fail "pkg-config misreads a path"

# Links to a folder and to a file are replaced, and what they lead to does not change.
mkdir "$work/folder"
ln -sfn "$work/folder" "$prefix/lib/libsockdiag.so"
ln -sf "$work/folder" "$prefix/include/sockdiag.h"
ln -sf "$work/expected" "$prefix/bin/sslist"
cp "$work/expected" "$work/before"
"$install" "$prefix" >/dev/null
installed "$prefix" | diff "$work/expected" - || fail "a link is not replaced"
[ -z "$(ls -A "$work/folder")" ] || fail "a file is installed in the folder of a link"
cmp -s "$work/expected" "$work/before" || fail "the file of a link is changed"

# A folder at the path of a file: nothing is installed. All other files are removed.
mkdir -p "$work/partial/lib/libsockdiag.so"
if "$install" "$work/partial" >"$work/out" 2>&1; then fail "it installs beside a folder"; fi
[ -z "$(find "$work/partial" ! -type d)" ] || fail "files are installed beside a folder"
SHARED=no "$install" "$work/partial" >/dev/null
mkdir "$work/blocked"
touch "$work/blocked/share"
if "$install" "$work/blocked" >"$work/out" 2>&1; then fail "it installs below a file"; fi
[ "$(ls "$work/blocked")" = share ] || fail "files are installed beside a file"
# Root can write in each folder.
as_user=
[ "$(id -u)" != 0 ] || as_user='setpriv --reuid=65534 --regid=65534 --clear-groups'
chmod -R a+rX "$work"
chmod 1777 "$TMPDIR"
mkdir -m 777 "$work/sealed" "$work/sealed/include"
mkdir -m 555 "$work/sealed/share"
# shellcheck disable=SC2086
fails 1 "a folder that cannot be written" $as_user "$install" "$work/sealed"
grep -qF "cannot create a file in $work/sealed/share" "$work/out" || fail "$(cat "$work/out")"
[ -z "$(find "$work/sealed" ! -type d)" ] || fail "files are installed beside a sealed folder"
if "$install" --uninstall "$work/partial" >"$work/out" 2>&1; then
    fail "the status of --uninstall with a folder"
fi
[ -z "$(find "$work/partial" ! -type d)" ] || fail "--uninstall leaves files beside a folder"
fails 1 "--uninstall of a prefix without files" "$install" --uninstall "$work/none"
grep -qF "nothing was removed: $work/none has no file" "$work/out" || fail "$(cat "$work/out")"

# The loader's folders are those that ldconfig lists.
mkdir "$work/commands"
printf '#!/bin/sh\necho "%s/lib: (from a file)"\n' "$prefix" >"$work/commands/ldconfig"
chmod +x "$work/commands/ldconfig"
PATH="$work/commands:$PATH" "$install" "$prefix" >"$work/out"
grep -q 'run ldconfig as root' "$work/out" || fail "the hint for a folder of the loader"
# That of the system is found though the folders of PATH lack it.
ldconfig=$(PATH=/sbin:/usr/sbin command -v ldconfig)
without=$(echo "$PATH" | tr : '\n' | grep -v '/sbin$' | paste -sd :)
if unshare -rm mount --bind "$work/commands/ldconfig" "$ldconfig" 2>/dev/null; then
    # shellcheck disable=SC2016
    unshare -rm sh -c 'mount --bind "$1" "$2" && PATH=$3 && "$4" "$5"' - \
        "$work/commands/ldconfig" "$ldconfig" "$without" "$install" "$prefix" >"$work/out"
    grep -q 'run ldconfig as root' "$work/out" || fail "ldconfig is not found"
else
    echo "skipped: tools/install: unshare is not allowed to mount"
fi

# exported PREFIX: prints the functions that a shared library exports, with the version that added
# them.
exported() {
    nm -D --defined-only --with-symbol-versions "$1/lib/libsockdiag.so" | sed -n 's/.* T //p' | sort
}

# The shared library exports the functions that the header declares, each as of one version.
sed -n 's/^[a-z][a-z0-9_]* \(sockdiag_[a-z0-9_]*\)(.*/\1/p' include/sockdiag.h | sort >"$work/calls"
exported "$prefix" | sed 's/@@.*//' | diff "$work/calls" - ||
    fail "tools/libsockdiag.map differs from the header: add new functions in a new entry"
[ "$(exported "$prefix" | sed 's/.*@@//' | sort -u)" = SOCKDIAG_1.0 ] ||
    fail "the versions of the functions"
grep -qF "| soname | \`$(readlink "$prefix/lib/libsockdiag.so")\` " docs/STABILITY.md ||
    fail "docs/STABILITY.md has another soname"

# A program that is linked with this version starts with the next MINOR, whose soname is the same. A
# program that needs a function of that version does not start with this one.
next=${version%%.*}.99
cp -R "$tree" "$work/next"
echo "$next.0" >"$work/next/VERSION"
tests/stand_in.sh "$work/next/lib/libsockdiag.a" sockdiag_new
printf 'SOCKDIAG_%s {\nglobal:\n    sockdiag_new;\n} %s;\n' "$next" \
    "$(sed -n 's/^\(SOCKDIAG_[0-9.]*\) {$/\1/p' tools/libsockdiag.map | tail -n 1)" \
    >>"$work/next/tools/libsockdiag.map"
"$work/next/tools/install" "$work/newer" >/dev/null
exported "$prefix" >"$work/earlier"
exported "$work/newer" | grep -v '^sockdiag_new@@' | diff "$work/earlier" - ||
    fail "a new entry changes the functions of the others"
echo '#include <sockdiag.h>
int main(void) { return (int)sockdiag_version(); }' >"$work/old.c"
echo 'int sockdiag_new(void);
int main(void) { return sockdiag_new(); }' >"$work/new.c"
"$CC" -I"$prefix/include" -o "$work/old" "$work/old.c" -L"$prefix/lib" -lsockdiag
"$CC" -o "$work/new" "$work/new.c" -L"$work/newer/lib" -lsockdiag
for case in old:prefix old:newer new:newer; do
    folder=$prefix
    [ "${case#*:}" = prefix ] || folder=$work/newer
    LD_LIBRARY_PATH="$folder/lib" "$work/${case%:*}" || fail "programs of versions: $case"
done
if LD_LIBRARY_PATH="$prefix/lib" "$work/new" 2>"$work/out"; then
    fail "a program starts with a library that lacks a function"
fi
grep -q "SOCKDIAG_$next' not found" "$work/out" || fail "an older library: $(cat "$work/out")"

# No shared library is made if a symbol is undefined, or a loader would have to write in its code.
cp -R "$tree" "$work/faulty"
sed -i 's/^    sockdiag_version;$/&\n    sockdiag_new;/' "$work/faulty/tools/libsockdiag.map"
for fault in 'call nowhere' 'movabs sockdiag_new, %rax'; do
    tests/stand_in.sh "$work/faulty/lib/libsockdiag.a"
    printf '.globl sockdiag_new\nsockdiag_new: %s\nret\n' "$fault" |
        $CC -x assembler -c -o "$work/other.o" -
    ar r "$work/faulty/lib/libsockdiag.a" "$work/other.o"
    fails 1 "a library with $fault" "$work/faulty/tools/install" "$work/none"
done

count=$(find "$prefix" ! -type d | wc -l)
"$install" --uninstall "$prefix" >"$work/out"
[ -z "$(find "$prefix" ! -type d)" ] || fail "--uninstall"
echo "tools/install: removed $count files of sockdiag $version from $prefix" |
    diff - "$work/out" || fail "what --uninstall prints"

# For packages: no compiler is needed, and there is no hint. tests/release.sh lists the files.
DESTDIR="$work/staged" LIBDIR=lib64 SHARED=no CC=false "$install" /usr >"$work/out"
[ "$(wc -l <"$work/out")" = 1 ] || fail "a hint for a package"
DESTDIR="$work/staged" LIBDIR=lib64 "$install" --uninstall /usr >/dev/null
[ -z "$(find "$work/staged" ! -type d)" ] || fail "--uninstall with DESTDIR"

# What cargo built, next to the built files of a release: the programs in C are compiled.
mkdir "$work/cargo"
cp "$tree/lib/libsockdiag.a" "$work/cargo/libsockdiag_c.a"
cp /bin/true "$work/cargo/sslist"
fails 1 "BUILT without a library" env BUILT="$work/none" "$install" "$work/none"
BUILT="$work/cargo" "$install" "$work/by_cargo" >"$work/out" || fail "BUILT"
cmp "$work/by_cargo/bin/sslist" /bin/true || fail "a program of another folder than BUILT"
for program in sockdump socklist; do
    "$work/by_cargo/bin/$program" --help | grep -q "^usage: $program" || fail "$program with BUILT"
done
[ ! -e "$work/by_cargo/bin/sockdiag" ] || fail "a program that BUILT lacks"

# In the sources, which have no folder bin, they are compiled. Without a compiler they are left out.
mv "$tree/bin" "$tree/lib" "$work/commands"
mkdir -p "$tree/crates/sockdiag_c/out" "$tree/crates/netlink_core/src" \
    "$tree/crates/netlink_core/specs"
cp crates.txt "$tree"
cp "$work/commands/lib/libsockdiag.a" "$tree/crates/sockdiag_c/out/libsockdiag_c.a"
"$install" "$work/sources" >"$work/out" || fail "the sources"
for program in sockdump socklist; do
    "$work/sources/bin/$program" --help | grep -q "^usage: $program" ||
        fail "$program of the sources"
done
SHARED=no CC=false "$install" "$work/without" >"$work/out" || fail "the sources without a compiler"
[ ! -e "$work/without/bin" ] || fail "programs that are not built"
# With a compiler that needs flags at both ends.
printf '#!/bin/sh\ncase $* in "-g -O1 "*" -s -g") exec %s "$@" ;; esac\nexit 1\n' "$CC" \
    >"$work/compiler"
chmod +x "$work/compiler"
SHARED=no CC=$work/compiler CFLAGS='-g -O1' LDFLAGS='-s -g' "$install" "$work/flags" >"$work/out"
for program in sockdump socklist; do
    [ -x "$work/flags/bin/$program" ] || fail "$program is compiled without CFLAGS or LDFLAGS"
done
# What is older than a source is not installed: the library is built again, which needs rt.
mkdir -p "$tree/crates/sslist/out"
cp "$work/commands/bin/sslist" "$tree/crates/sslist/out"
printf '#!/bin/sh\n[ "$1" = lib ] && touch -d "3 hours" out/libsockdiag_c.a\n' >"$work/commands/rt"
chmod +x "$work/commands/rt"
"$install" "$work/current" >"$work/out"
[ -x "$work/current/bin/sslist" ] || fail "a program that is built: $(cat "$work/out")"
for source in src/lib.rt specs/Codec.antt; do
    touch -d '1 hour' "$tree/crates/netlink_core/$source"
    fails 1 "without rt" env PATH=/usr/bin:/bin "$install" "$work/none"
    grep -q 'rt not found' "$work/out" || fail "without rt: $(cat "$work/out")"
    fails 1 "an old library in BUILT" env BUILT="$work/cargo" "$install" "$work/none"
    PATH="$work/commands:$PATH" "$install" "$work/again" >"$work/out" 2>&1 ||
        fail "an old library: $(cat "$work/out")"
    [ ! -e "$work/again/bin/sslist" ] || fail "an old program is installed"
    rm "$tree/crates/netlink_core/$source"
    touch -d '1 minute ago' "$tree/crates/sockdiag_c/out/libsockdiag_c.a"
done
touch -d '1 hour' "$tree/tools/erase"
fails 1 "a library that is older than tools/erase" env BUILT="$work/cargo" "$install" "$work/none"
rm "$tree/tools/erase"
mv "$work/commands/bin" "$work/commands/lib" "$tree"
rm -r "$tree/crates"

# The lines of INSTALL.md for one user, but for the one that lists the sockets: a wrong argument
# shows that the program starts. In an unpacked release it is built with the library there, and in
# another folder with the installed one.
grep -E '^    (tools/install "|export |make -C examples$|examples/list_sockets$)' INSTALL.md |
    sed 's,^    ,,; s,^examples/list_sockets$,& wrong 2>usage || :,' >"$tree/lines"
cat >>"$tree/lines" <<'END'
make -C examples clean
cp -R examples "$HOME"
make -C "$HOME/examples"
"$HOME/examples/list_sockets" wrong 2>>usage || :
END
HOME="$work/a home"
(cd "$tree" && sh -eu lines >"$work/out") || fail "the lines of INSTALL.md"
[ "$(grep -c '^usage: ' "$tree/usage")" = 2 ] || fail "the program of INSTALL.md"
echo "install: all tests pass"
