#!/bin/sh
# bench/lines.sh [OTHER [FOLDER]]: measures the CPU time of the program sockdiag, with its output to
# /dev/null, to a file and to a pipe, and its peak memory. OTHER is the path of another program that
# answers the same lines, and is measured too. Each file in FOLDER is a further input.
set -eu
top=$(CDPATH='' cd -- "$(dirname -- "$0")/.." && pwd)
printf '' | "$top/sockdiag" # builds it if necessary
crate=$top/crates/sockdiag
exec python3 "$top/bench/lines.py" "$crate/out/sockdiag" "$crate/stdin" "$@"
