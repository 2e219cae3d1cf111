#!/bin/sh
# over_gate.sh CRATE COMMAND ARGUMENT..: runs a command of the kit's prover (`rattle check` or
# `rattle build`) in the current folder, which has the sources of this crate, over the built
# libraries in crates/*/out. tools/build, tests/edits.py and tests/api/must_not_compile.sh run this
# script.
#
# `rt ci` leaves the statements of each library there, and not its checked proofs. `rt check` and
# `rt lib` do not use such libraries, and would prove all of them once more.
set -eu
top=$(CDPATH='' cd -- "$(dirname -- "$0")/.." && pwd)
kit=$(dirname -- "$(dirname -- "$(readlink -f -- "$(command -v rt)")")")
crate=$1 command=$2
shift 2
for name in std $(sed -n "s/^$crate\( staticlib\)\{0,1\}://p" "$top/crates.txt"); do
    folder=$kit/rlibs
    if [ -d "$top/crates/$name" ]; then folder=$top/crates/$name/out/rlib; fi
    set -- "$@" --extern "$name=$folder/$name.rlib"
done
for name in $("$top/tools/libraries" "$crate"); do
    set -- "$@" -L "dependency=$top/crates/$name/out/rlib"
done
root=src/lib.rt
[ ! -f src/main.rt ] || root=src/main.rt
exec "$kit/bin/rattle" "$command" --crate-name "$crate" "$root" "$@" \
    -L "dependency=$kit/rlibs" --antt-project "$kit/rattle/logic/antt-project.json" \
    --logic-built "$kit/logic_built"
