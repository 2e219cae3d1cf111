#!/bin/sh
# Times this port and the Rust crate netlink-packet-sock-diag 0.5.0 on the same replies, and prints
# the time of the port divided by the time of the crate, for some of the replies and the means of
# all, which docs/SPEED.md has.
#
#     bench/compare.sh
#     BENCH_ORIGINAL=FOLDER bench/compare.sh     without crates.io: FOLDER/sockdiag is the crate,
#                                               FOLDER/core is netlink-packet-core 0.8
#
# Needs the kit's rt, cargo of Rust 1.85 or later, cc, and crates.io. Takes two minutes if the
# repository's crates are proved, and about 15 more if they are not.
set -eu
original=${BENCH_ORIGINAL:+$(CDPATH='' cd -- "$BENCH_ORIGINAL" && pwd)}
CDPATH='' cd -- "$(dirname -- "$0")/.."
top=$PWD
. bench/library.sh

# Cargo builds a copy, so that its lock file and its target folder are there too.
rm -rf "$made/compare"
cp -R bench/compare "$made/compare"
cd "$made/compare"
set -- --release --target-dir target
if [ -n "$original" ]; then
    patch=patch.crates-io.netlink-packet
    set -- "$@" --offline --config "$patch-sock-diag.path='$original/sockdiag'" \
        --config "$patch-core.path='$original/core'"
fi
quietly "$made/cargo.log" \
    cargo rustc "$@" -- -Clink-arg="$library" -Clink-arg="$kit_library"
target/release/beside >table
python3 "$top/bench/table.py" 'rustc --version' <table
