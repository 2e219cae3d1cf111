#!/bin/sh
# release.sh [--write]: runs tools/pack in copies of this tree, with programs and a library that are
# made here. Needs no kit, and takes one or two minutes.
#
# - tests/release.txt lists the members of the archive in order, with modes, owners and times, and
#   the files that tools/install and the Debian packages install, and what these depend on. The
#   sources of the package for Rust, which cargo compiles here, are one line. --write writes a new
#   list.
# - Two copies at different paths, with other times and modes, are packed to the same bytes, also
#   with another umask and locale, and variables that gzip and tar read. A link at the path of the
#   archive is replaced. CDPATH has no effect.
# - The archive has no broken link. Its examples in C can be built, but not with a library of
#   another version. Its package for Rust can be compiled, and so can a program that depends on it
#   as INSTALL.md says.
# - dpkg-buildpackage builds the Debian packages of the archive, by a stand-in of cargo. lintian
#   reports no error and no warning. They can be installed into another root and removed from it
#   (skipped without root).
# - tools/pack fails, and leaves no file, if a file or the date of the version is missing, or the
#   time is wrong.
# - tools/release packs what a gate left that is made here. It refuses an rt of another logic, an
#   edit that is not rejected, and a gate that left too little, or whose sources changed.
#
# What needs a C compiler, cargo or debhelper is skipped without it.
set -eu
top=$(CDPATH='' cd -- "$(dirname -- "$0")/.." && pwd)
version=$(cat "$top/VERSION")
users=sockdiag-$version-x86_64-linux
work=$(realpath "$(mktemp -d)")
trap '[ $? = 0 ] || echo "$0: failed" >&2; rm -rf "$work"' EXIT
cd "$work"
umask 022
unset CFLAGS LDFLAGS

fail() {
    echo "release.sh: $1" >&2
    exit 1
}

has() {
    command -v "$1" >/dev/null || { echo "release.sh: skipped: no $1" >&2; return 1; }
}

# The programs, and a library whose functions return 0.
mkdir built
has "${CC:-cc}" || exit 0
mkdir bin
# make_program FILE TEXT: makes a program that contains the text.
cat >bin/make_program <<'END'
#!/bin/sh
printf 'const char text[] = "%s";\nint main(void) { return 0; }\n' "$2" | ${CC:-cc} -x c -o "$1" -
END
chmod +x bin/make_program
for program in sockdiag sslist sockdump socklist; do
    bin/make_program built/$program $program
done
touch built/sockdiag.o built/sslist.o built/sockdiag.html
"$top/tests/stand_in.sh" built/libsockdiag_c.a

# A copy of the tree with files that must not be packed.
for copy in one 'elsewhere/a tree'; do
    mkdir -p "$copy"
    (cd "$top" && tar -c --exclude=target --exclude=Cargo.lock --exclude=__pycache__ crates/*/src \
        debian docs examples include man tools CHANGELOG.md INSTALL.md COPYING.LIB LICENSE-MIT \
        LICENSE-PORTED LICENSE-UNICODE LICENSES.md README.md SECURITY.md VERSION) |
        tar -x -C "$copy"
    mkdir -p "$copy/tools/erased/target/debug"
    for file in tools/erased/target/debug/it tools/erased/Cargo.lock docs/NOTES.md; do
        echo 'not packed' >"$copy/$file"
    done
done
find elsewhere -type d -exec chmod 700 {} +
find elsewhere -type f -exec touch -d @1 {} + ! -path '*/tools/*' -exec chmod 600 {} +

# pack COPY FOLDER: packs by the time 86400, if SOURCE_DATE_EPOCH is not set.
pack() {
    "$1/tools/pack" built "$2" >/dev/null
}

# With this CDPATH, these cd would lead into other folders.
mkdir -p other_top/tools other_top/one/tools other_top/crates/low other_top/crates/checked
export SOURCE_DATE_EPOCH=86400
(cd one && CDPATH=$work/other_top tools/pack ../built - >/dev/null)
mv one/- first
# A locale by which sort orders the names in another way.
localedef -i en_US -f UTF-8 ./en_US.UTF-8 2>said || echo "release.sh: skipped: no locale en_US" >&2
mkdir second
echo unchanged >unchanged
ln -s "$work/unchanged" "second/$users.tar.gz"
(umask 077 && export LOCPATH="$work" LC_ALL=en_US.UTF-8 TZ=Asia/Tokyo GZIP=-1 \
    TAR_OPTIONS=--exclude=docs && pack 'elsewhere/a tree' second)
diff -r first second || fail "two trees are not packed to the same bytes"
[ "$(cat unchanged)" = unchanged ] || fail "the file of a link is changed"
(cd first && cat ./*.sha256 | sha256sum -c --quiet) || fail "a sum is wrong"
# The package for Rust takes some seconds to write. From here on it has one file.
printf '#!/bin/sh\nmkdir "$1" && touch "$1/Cargo.toml"\n' >one/tools/erase

# members ARCHIVE: lists what an archive has apart from the package for Rust, and from the files
# that an archive for arm64 does not have here.
members() {
    tar -tzf "$1" | sed "s,^[^/]*/,," | grep -v '^rust/\|\.o$\|\.html$'
}
if has aarch64-linux-gnu-gcc; then
    mkdir arm64
    for program in sockdiag sslist sockdump socklist; do
        CC=aarch64-linux-gnu-gcc bin/make_program arm64/$program $program
    done
    : >arm64/libsockdiag_c.a
    one/tools/pack arm64 arm64_packed aarch64 >/dev/null
    members "first/$users.tar.gz" >expected_members
    members "arm64_packed/sockdiag-$version-aarch64-linux.tar.gz" | diff expected_members - ||
        fail "the archive for arm64 has other members"
fi

mkdir unpacked staged prefix packages
tar -xzf "first/$users.tar.gz" -C unpacked
unpacked=$work/unpacked/$users
for file in "$unpacked"/bin/*; do
    [ -z "$(nm "$file" 2>/dev/null)" ] || fail "$file is not stripped"
done
SHARED=no LIBDIR=lib64 DESTDIR=$work/staged "$unpacked/tools/install" /usr >/dev/null
"$unpacked/tools/install" "$work/prefix" >/dev/null

# A cargo that builds nothing: it writes the files that are made here.
mkdir no_cargo
cat >no_cargo/cargo <<END
#!/bin/sh
case "\$* " in
    'build --release --manifest-path rust/Cargo.toml ') files='sockdiag sslist' ;;
    'build --release --manifest-path rust/Cargo.toml --package sockdiag_c ')
        files=libsockdiag_c.a ;;
    *) exit 2 ;;
esac
touch rust/Cargo.lock
mkdir -p "\$CARGO_TARGET_DIR/release"
cd "$work/built" && cp \$files "\$CARGO_TARGET_DIR/release"
END
chmod +x no_cargo/cargo
cp "$top/tests/release.txt" expected
if has dh; then
    cp -R "$unpacked" packages
    # What a user built in the folder of the release before.
    mkdir "packages/$users/rust/target"
    touch "packages/$users/rust/target/built" "packages/$users/examples/list_rtt"
    (cd "packages/$users" && unset SOURCE_DATE_EPOCH && PATH=$work/no_cargo:$PATH \
        DEB_BUILD_OPTIONS='nocheck noautodbgsym' dpkg-buildpackage -b -d -us -uc) >said 2>&1 ||
        fail "dpkg-buildpackage: $(cat said)"
else
    sed -i '/\.deb$/,$d' expected
fi

{
    echo "== $users.tar.gz"
    gzip -dc "first/$users.tar.gz" | TZ=UTC tar -tv --numeric-owner --full-time |
        awk '{ print $1, $2, $4, $5, $6 }' |
        sed 's,/rust/src/.*/$,/rust/src/*/,; s,/rust/src/.*\.rs$,/rust/src/*.rs,' |
        awk '!seen[$0]++'
    for folder in staged prefix; do
        echo "== tools/install, $folder"
        (cd $folder && find . ! -type d -printf '%M %p %l\n' | sort -k 2)
    done
    cat staged/usr/lib64/pkgconfig/sockdiag.pc
    # The files of the package for Rust, which the archive has too, are compared below.
    for package in $(find packages -name '*.deb' | LC_ALL=C sort); do
        echo "== ${package##*/}"
        dpkg-deb -f "$package" Section Multi-Arch Depends | sed 's/libc6 ([^)]*)/libc6/'
        dpkg-deb -c "$package" | awk '!/^d|sockdiag\/rust\/./ { print $1, $6, $8 }' |
            LC_ALL=C sort -k 2
    done
} | sed "s/$version/VERSION/g; s/\.${version%%.*}\.0\( \|$\)/.MAJOR.0\1/; s/ *$//" >list
if [ "${1-}" = --write ]; then cp list "$top/tests/release.txt"; cp list expected; fi
diff expected list || fail "run it with --write if the difference is intended"

python3 "$top/tests/tidy.py" --links "$unpacked" || fail "the archive for users has broken links"
for page in "$unpacked"/docs/*.md; do
    grep -q "(docs/$(basename "$page")" "$unpacked/INSTALL.md" || fail "INSTALL.md lacks $page"
done
for file in $(sed -n 's/^Files: \(.*[^*]\)$/\1/p' "$top/debian/copyright"); do
    [ -e "$unpacked/$file" ] || fail "debian/copyright: $file is not in the archive"
done
cd "$unpacked"
${CC:-cc} -Iinclude -o "$work/static" examples/list_sockets.c lib/libsockdiag.a
${CC:-cc} -I"$work/prefix/include" -L"$work/prefix/lib" -o "$work/shared" examples/list_sockets.c \
    -lsockdiag
if has make; then
    make -s -C examples PKG_CONFIG=false
    make -s -C examples clean
    cp -R examples "$work"
    ! has pkg-config || PKG_CONFIG_PATH=$work/prefix/lib/pkgconfig make -s -C "$work/examples"
fi
if has cargo; then
    export CARGO_TARGET_DIR="$work/target"
    (cd rust && cargo check --offline --quiet --all-targets &&
        cargo check --offline --quiet --package sockdiag_c)
    cd ..
    mkdir src
    echo 'fn main() { println!("{}", sockdiag::DecodeError::Memory); }' >src/main.rs
    {
        printf '[package]\nname = "program"\nedition = "2021"\n'
        sed -n "/^\`\`\`toml$/,/^\`\`\`$/ { /^\`/d; s/VERSION/$version/; p; }" "$top/INSTALL.md"
    } >Cargo.toml
    grep -q rust Cargo.toml || fail "INSTALL.md has no dependency"
    cargo check --offline --quiet
fi
cd "$work"

debs=$(find packages -name '*.deb')
if [ -n "$debs" ] && has lintian; then
    # The shared library that is made here calls no other one.
    # shellcheck disable=SC2086
    lintian --allow-root --suppress-tags shared-library-lacks-prerequisites \
        --fail-on error,warning $debs >said || fail "lintian: $(cat said)"
fi
if [ -n "$debs" ] && [ "$(id -u)" -eq 0 ]; then
    mkdir -p root/var/lib/dpkg/info root/var/lib/dpkg/updates
    touch root/var/lib/dpkg/available root/var/lib/dpkg/status
    # dpkg ACTION..: with the options of a root without other packages. A container's configuration
    # may leave out documentation, and log outside of the root.
    in_root() {
        dpkg --root=root --log=log --force-depends '--path-include=*' "$@" >said 2>&1 ||
            fail "dpkg $*: $(cat said)"
    }
    # shellcheck disable=SC2086
    in_root --install $debs
    in_root --verify
    [ ! -s said ] || fail "dpkg --verify: $(cat said)"
    diff -r -x Cargo.lock "$unpacked/rust" root/usr/share/sockdiag/rust ||
        fail "the package for Rust differs"
    for program in sockdump socklist; do
        [ "$(root/usr/bin/$program --version)" = "$program $version" ] ||
            fail "$program of a package"
        nm -D "root/usr/bin/$program" | grep -q __fprintf_chk ||
            fail "$program of a package is compiled without the flags of dpkg-buildflags"
    done
    ${CC:-cc} -Iroot/usr/include -o linked root/usr/share/doc/libsockdiag-dev/examples/list_rtt.c \
        root/usr/lib/*/libsockdiag.so
    in_root --purge sockdiag libsockdiag1.0 libsockdiag-dev
    [ -z "$(find root -type f ! -path '*/var/*')" ] || fail "dpkg --purge leaves files"
fi

# The date of the version in CHANGELOG.md, and a date after 2106.
SOURCE_DATE_EPOCH='' pack one dated
day=$(sed -n "s/^## \[$version\] - //p" one/CHANGELOG.md)
for case in "dated $day" 'future 2106-02-08'; do
    folder=${case% *} time=$(date -u -d "${case#* }" +%s)
    [ -d $folder ] || SOURCE_DATE_EPOCH=$time pack one $folder
    TZ=UTC tar -tvzf "$folder/$users.tar.gz" --full-time | grep -v " ${case#* } " >wrong || continue
    fail "$folder: $(head -n 1 wrong)"
done

# What the gate leaves, and an rt, which only has to print its version.
printf '#!/bin/sh\necho "rattle-kit-1 logic $KIT_LOGIC"\n' >bin/rt
printf 'low:\nchecked:\nother:\nsockdiag: low\nsslist: checked\nsockdiag_c: other\n' >one/crates.txt
for crate in low checked other; do mkdir -p "one/crates/$crate/out/rlib/$crate.rlib"; done
mkdir -p one/tests one/out/static one/crates/sockdiag_c/out
for program in sockdiag sslist; do
    bin/make_program "one/out/static/$program" "built $program"
done
"$top/tests/stand_in.sh" one/crates/sockdiag_c/out/libsockdiag_c.a library
echo 12 >one/LOGIC
echo out/ >one/.gitignore
# A file whose name is an option of find.
touch one/-delete
printf 'import os\nraise SystemExit(int(os.environ["EDITS"]))\n' >one/tests/edits.py
chmod +x bin/rt
git -C one init -q
touch one/out/gate-passed

# A C compiler that needs flags at both ends, by default only -O2, for static programs in C.
cat >bin/cc_flags <<END
#!/bin/sh
case "\$* " in "\${CFLAGS--O2} -static "*" \${LDFLAGS-}"*) exec ${CC:-cc} "\$@" ;; esac
exit 1
END
chmod +x bin/cc_flags
# release LOGIC EDITS ARGUMENT..: runs tools/release, with a kit of this logic, and with an edits.py
# that has the exit status EDITS.
release() {
    logic=$1 edits=$2
    shift 2
    KIT_LOGIC=$logic EDITS=$edits PATH="$work/bin:$PATH" CC=cc_flags CDPATH=$work/other_top \
        one/tools/release "$@" >/dev/null
}
# refuses WHAT LOGIC: fails if tools/release packs with a kit of this logic, or if what it says does
# not contain WHAT.
refuses() {
    if release "$2" 0 refused 2>said; then fail "it releases: $1"; fi
    grep -qF "tools/release: $1" said || fail "$1: $(cat said)"
}
refuses 'rt version does not print logic 12' 123
for file in out/gate-passed out/static/sslist crates/sockdiag_c/out/libsockdiag_c.a \
    crates/other/out/rlib/other.rlib; do
    mv "one/$file" missing
    case $file in
        *passed) refuses '.ci/run has not passed in this clone' 12 ;;
        *) refuses ".ci/run left no $file" 12 ;;
    esac
    mv missing "one/$file"
done
touch -d '1 hour' one/crates.txt
refuses 'run .ci/run again, since it began before this changed: ./crates.txt' 12
touch -d @86400 one/crates.txt
git -C one add crates.txt
mv one/crates.txt missing
refuses 'a source is missing' 12
mv missing one/crates.txt
if release 12 1 refused; then fail "it releases with an edit that is not rejected"; fi
[ ! -e refused ] || fail "it packs a release that it refuses"
release 12 0 released
# For arm64, by stand-ins of cargo, which has to link statically, and of the compiler.
mkdir one/out/arm64 for_arm64
cp one/crates/sockdiag_c/out/libsockdiag_c.a one/out/arm64
cat >for_arm64/cargo <<END
#!/bin/sh
[ "\$RUSTFLAGS" = '-C target-feature=+crt-static' ] || exit 1
built=\$CARGO_TARGET_DIR/aarch64-unknown-linux-gnu/release
mkdir -p "\$built" && cp $work/one/out/static/* "\$built"
END
printf '#!/bin/sh\necho /\n' >for_arm64/rustc
for tool in gcc:cc strip:strip; do
    printf '#!/bin/sh\nexec %s "$@"\n' "${tool#*:}" >"for_arm64/aarch64-linux-gnu-${tool%:*}"
done
chmod +x for_arm64/*
(PATH=$work/for_arm64:$PATH && release 12 0 both) || fail "a release for arm64"
[ -e "both/sockdiag-$version-aarch64-linux.tar.gz" ] || fail "no archive for arm64"
rm -r one/out/arm64
CFLAGS='-w -O2' LDFLAGS='-lc -w' release 12 0 with_flags
diff "released/$users.tar.gz" "with_flags/$users.tar.gz" || fail "-w or -lc changes the archive"
for file in bin/sockdiag bin/sslist lib/libsockdiag.a; do
    tar -xzOf "released/$users.tar.gz" "$users/$file" | grep -ao 'built [a-z]*\|library'
done | uniq >built.txt
printf 'built sockdiag\nbuilt sslist\nlibrary\n' | diff - built.txt ||
    fail "built files of a release"

# packs_nothing WHAT STATUS: fails if tools/pack does not end with the status, or leaves a file.
packs_nothing() {
    status=0
    pack one nothing 2>said || status=$?
    [ $status -eq "$2" ] || fail "it packs $1: status $status, $(cat said)"
    [ ! -d nothing ] || [ -z "$(ls -A nothing)" ] || fail "it leaves files: $1"
}
SOURCE_DATE_EPOCH=x packs_nothing 'with a wrong time' 2
printf '#!/bin/sh\nexit 1\n' >one/tools/erase
packs_nothing 'without the package for Rust' 1
printf '#!/bin/sh\nmkdir "$1"\n' >one/tools/erase
mv one/docs/LINES.md one/docs/OTHER.md
packs_nothing 'without a page' 1
mv one/docs/OTHER.md one/docs/LINES.md
echo '## [Unreleased]' >one/CHANGELOG.md
SOURCE_DATE_EPOCH='' packs_nothing 'without a date' 1
grep -q "no date of $version in CHANGELOG.md" said || fail "no date: $(cat said)"
