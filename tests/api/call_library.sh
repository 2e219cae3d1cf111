#!/bin/sh
# call_library.sh LIBRARY FOLDER: links C programs of this folder with a build of the C library, by
# the compiler CC, runs them by RUN, and compares what print_replies prints with what an independent
# reader says. CC and RUN are words, and RUN may be empty. FOLDER has what several runs of this
# script share. erased_targets.sh and builds.sh run it.
set -eu
top=$(CDPATH='' cd -- "$(dirname -- "$0")/../.." && pwd)
library=$1 folder=$2
# CC and RUN are several words.
# shellcheck disable=SC2086
compile() { $CC "$@"; }
# shellcheck disable=SC2086
run() { ${RUN-} "$@"; }

if [ ! -e "$folder/expected" ]; then
    python3 "$top/tests/api/reply_reader.py" make 100000 1 >"$folder/replies"
    python3 "$top/tests/api/reply_reader.py" read <"$folder/replies" >"$folder/expected"
fi
for program in c_api c_values c_messages fuzz_c print_replies; do
    compile -std=c99 -O2 -Wall -Wextra -Wpedantic -Werror -I"$top/include" \
        -o "$folder/$program" "$top/tests/api/$program.c" "$library" -Wl,-rpath,"${library%/*}"
done
for program in c_api c_values c_messages; do run "$folder/$program" >"$folder/log"; done
run "$folder/fuzz_c" 20000 "$top/crates/sslist/stdin" >"$folder/log"
run "$folder/print_replies" <"$folder/replies" >"$folder/found"
cmp "$folder/expected" "$folder/found"
