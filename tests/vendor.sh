#!/bin/sh
# Runs tools/vendor in small repositories. It copies the libraries of the port, refuses wrong
# arguments and this repository as target, and changes nothing in the target if it cannot copy all
# of them or a signal ends it. Needs no kit.
set -eu
tools=$(CDPATH='' cd -- "$(dirname -- "$0")/../tools" && pwd)
work=$(realpath "$(mktemp -d)")
trap '[ $? = 0 ] || echo "$0: failed" >&2; rm -rf "$work"' EXIT
cd "$work"

libraries='netlink_core sock_diag_replies netlink_packet_sock_diag'
mkdir -p from/tools to/crates/mine/src to/crates/netlink_core/src linked
cp "$tools/vendor" "$tools/libraries" from/tools
touch from/LICENSE-MIT from/LICENSE-PORTED from/VERSION
below=
for name in $libraries extra; do
    echo "$name:$below" >>from/crates.txt
    below=" $name"
    mkdir -p "from/crates/$name"
    for part in src specs proofs; do
        mkdir "from/crates/$name/$part"
        echo "$part of $name" >"from/crates/$name/$part/file"
    done
done
mkdir -p from/crates/netlink_core/out/rlib
touch from/crates/netlink_core/out/rlib/stamp
printf 'mine: netlink_core\nnetlink_core: old\n' >to/crates.txt
echo mine >to/crates/mine/src/lib.rt
echo old >to/crates/netlink_core/src/gone.rt
ln -s "$work/from" link
ln -s "$work/from/crates" linked/crates
cp -R from from.before
cp -R to to.before

fail() {
    echo "vendor.sh: $1" >&2
    exit 1
}

for target in from from/tools/.. link from/crates/extra from/new linked; do
    status=0
    from/tools/vendor "$target" 2>errors || status=$?
    [ $status -eq 2 ] && grep -q 'is in this repository$' errors ||
        fail "$target is not refused: $status $(cat errors)"
done
diff -r from from.before || fail "a refused target was changed"

mv from/crates/sock_diag_replies/src src
if from/tools/vendor to 2>errors; then fail "it ended with status 0 without the code"; fi
diff -r to to.before || fail "the target was changed though not all was copied"
mv src from/crates/sock_diag_replies/src

mkdir commands
for signal in INT TERM HUP; do
    # shellcheck disable=SC2016
    printf '#!/bin/sh\nkill -%s $PPID\n' "$signal" >commands/cp
    chmod +x commands/cp
    status=0
    env --default-signal="$signal" PATH="$work/commands:$PATH" from/tools/vendor to || status=$?
    [ $status -eq 130 ] || fail "$signal: status $status"
    diff -r to to.before || fail "$signal: the target was changed"
done

mkdir nothing
for words in '' --option 'one two'; do
    status=0
    # shellcheck disable=SC2086
    (cd nothing && ../from/tools/vendor $words) 2>errors || status=$?
    [ $status -eq 2 ] && grep -q '^usage: ' errors || fail "the arguments '$words': $status"
done
[ -z "$(ls -A nothing)" ] || fail "wrong arguments: $(ls -A nothing)"

# With CDPATH the shell's cd could lead into another folder.
mkdir -p other/tools
(cd from && CDPATH=$work/other tools/libraries netlink_packet_sock_diag) >listed || fail CDPATH
printf 'netlink_core\nsock_diag_replies\n' | diff - listed || fail CDPATH

{ head -n 3 from/crates.txt; echo 'mine: netlink_core'; } >expected
# The last target does not exist yet at first, and has no crates of its own.
for target in to to new new; do
    from/tools/vendor $target 2>errors || fail "status $?"
    echo "tools/vendor: no proof results here of sock_diag_replies netlink_packet_sock_diag:" \
        "rt ci keeps none; run ./sockdiag first, or the first rt check in $work/$target proves" \
        "them" | diff - errors || fail "unexpected messages"
    if [ $target = new ]; then sed -i '/^mine:/d' expected; fi
    diff expected $target/crates.txt || fail "wrong crates.txt in $target"
    ls $target/crates >listed
    sed 's/:.*//' expected | sort | diff - listed || fail "wrong crates in $target"
    (cd $target/crates/netlink_core && find . -type f | sort | tr '\n' ' ') >files
    echo './.gitignore ./LICENSE-MIT ./LICENSE-PORTED ./VERSION ./out/rlib/stamp ./proofs/file' \
        './specs/file ./src/file ' | tr -d '\n' | diff files - || fail "wrong files in $target"
done
diff -r to/crates/mine to.before/crates/mine || fail "a crate of the target was changed"
