#!/bin/sh
# Tests the package that tools/erase writes on targets other than x86-64 with glibc: on arm64 with
# glibc, by qemu, and on x86-64 with musl. For each one it builds the C library by cargo, links C
# programs of this folder with it and runs them, compares what the programs sockdiag and sslist
# print with what is stored, and runs the tests of the package. Needs nothing that is proved. A
# target whose tools are missing is skipped. The gate runs this script.
#
# Needs cargo, cc and Python, and these tools: rustc and rustdoc with Rust's library for arm64 and
# with its sources, aarch64-linux-gnu-gcc, qemu-aarch64-static and musl-gcc. fetch_targets.sh gets
# them into a folder, which ERASED_TOOLS names.
set -eu
top=$(CDPATH='' cd -- "$(dirname -- "$0")/../.." && pwd)
work=$(mktemp -d)
trap '[ $? = 0 ] || echo "$0: failed" >&2; rm -rf "$work"' EXIT
trap 'exit 130' INT TERM HUP
if [ -n "${ERASED_TOOLS-}" ]; then
    PATH=$(CDPATH='' cd -- "$ERASED_TOOLS/bin" && pwd):$PATH
fi
unset CARGO_BUILD_TARGET CARGO_ENCODED_RUSTFLAGS CARGO_TARGET_DIR RUSTFLAGS RUSTDOCFLAGS
# Without these variables cargo, if it is that of rustup, takes those of rustup.
RUSTC=$(command -v rustc || :) RUSTDOC=$(command -v rustdoc || :)
export RUSTC RUSTDOC

# Runs a command, and prints its output only if it fails.
quiet() {
    "$@" >"$work/log" 2>&1 || { cat "$work/log" >&2; exit 1; }
}

skipped() {
    echo "erased: skipped: $target: no $1"
}

# Returns whether the programs exist, or says which one is missing.
have() {
    for program; do
        command -v "$program" >/dev/null || { skipped "$program"; return 1; }
    done
}

# test_library LIBRARY: links C programs with a library, and runs them.
test_library() {
    CC=$compiler RUN=$runner "$top/tests/api/call_library.sh" "$1" "$work"
    echo "erased: $target: C programs pass with ${1##*/}"
}

# Stores what a program prints of its stored input.
answer() {
    # The words of a command.
    # shellcheck disable=SC2086
    $runner "$built/$1" <"$top/crates/$1/stdin" >"$work/found"
}

# test_target FLAG..: tests a target, for which cargo needs more flags. The words of `compiler`
# compile C for it, those of `runner` run a program, and `left_out` is a test that is not run, or
# empty.
test_target() {
    [ -e "$work/erased" ] || "$top/tools/erase" "$work/erased"
    cd "$work/erased"
    built=$work/erased/target/$target/release
    quiet cargo build --release --offline --target "$target" --package sockdiag_c "$@"
    for library in "$built"/libsockdiag_c.*[ao]; do test_library "$library"; done
    quiet cargo build --release --offline --target "$target" "$@"
    for program in sockdiag sslist; do
        quiet answer "$program"
        cmp "$work/found" "$top/crates/$program/stdout"
        echo "erased: $target: $program prints the $(wc -l <"$work/found") stored lines"
    done
    for features in --no-default-features ''; do
        quiet cargo test --offline --target "$target" $features "$@" \
            ${left_out:+-- --skip "$left_out"}
        count=$(awk '/^test result: ok/ { sum += $4 } END { print sum + 0 }' "$work/log")
        echo "erased: $target: $count tests pass${features:+ with $features}"
    done
}

left_out=
arm() {
    target=aarch64-unknown-linux-gnu
    have cargo rustc rustdoc aarch64-linux-gnu-gcc qemu-aarch64-static || return 0
    if [ ! -d "$(rustc --print target-libdir --target "$target")" ]; then
        skipped 'library of Rust'
        return
    fi
    compiler=aarch64-linux-gnu-gcc
    # The folder whose lib has the loader and the C library.
    libc=$("$compiler" -print-file-name=libc.so.6)
    libc=$(CDPATH='' cd -- "$(dirname -- "$libc")/.." && pwd)
    runner="qemu-aarch64-static -L $libc"
    export CARGO_TARGET_AARCH64_UNKNOWN_LINUX_GNU_LINKER=aarch64-linux-gnu-gcc
    export CARGO_TARGET_AARCH64_UNKNOWN_LINUX_GNU_RUNNER=$runner
    # Under qemu, tests that are not optimized take minutes.
    export CARGO_PROFILE_TEST_OPT_LEVEL=1
    # In the process that this test starts, qemu needs the descriptors that are closed.
    left_out=no_socket_takes_a_standard_descriptor
    test_target
}

# Makes what musl lacks: $work/kernel has the headers of the kernel, and $work/unwind the library
# libunwind.a, with which cargo links. It refers to that of gcc, which has the same functions, made
# for glibc: they find the tables of a program by a function of glibc, and call those of threads
# without linking them.
complete_musl() {
    mkdir "$work/kernel" "$work/unwind"
    for folder in /usr/include /usr/include/x86_64-linux-gnu; do
        for header in linux asm asm-generic; do
            [ ! -d "$folder/$header" ] || ln -sfn "$folder/$header" "$work/kernel/$header"
        done
    done
    cat >"$work/find.c" <<'END'
extern char __GNU_EH_FRAME_HDR[];
int _dl_find_object(void *address, void **found) {
    (void)address;
    found[4] = __GNU_EH_FRAME_HDR;
    return 0;
}
END
    quiet musl-gcc -c -o "$work/find.o" "$work/find.c"
    cat >"$work/unwind/libunwind.a" <<END
EXTERN(pthread_once pthread_mutex_lock pthread_mutex_unlock)
EXTERN(pthread_key_create pthread_getspecific pthread_setspecific)
INPUT($(cc -print-file-name=libgcc_eh.a) $work/find.o)
END
}

# Rust's library is compiled here, since Debian has none for musl.
musl() {
    target=x86_64-unknown-linux-musl
    have cargo rustc rustdoc cc musl-gcc || return 0
    vendored=$(rustc --print sysroot)/lib/rustlib/src/rust/library/vendor
    if [ ! -d "$vendored" ]; then
        skipped "sources of Rust's library"
        return
    fi
    complete_musl
    compiler="musl-gcc -static -idirafter $work/kernel" runner=
    # Start files are musl-gcc's, whose static programs are not position-independent.
    flags="-C link-self-contained=no -C relocation-model=static -L native=$work/unwind"
    export CARGO_TARGET_X86_64_UNKNOWN_LINUX_MUSL_LINKER=musl-gcc
    export CARGO_TARGET_X86_64_UNKNOWN_LINUX_MUSL_RUSTFLAGS="$flags"
    export CARGO_TARGET_X86_64_UNKNOWN_LINUX_MUSL_RUSTDOCFLAGS="$flags"
    # As in tests. If the profile had another one, cargo would compile core twice, and fail.
    export CARGO_PROFILE_DEV_PANIC=unwind
    # -Z is for nightly versions otherwise. The default features would take longer to build.
    export RUSTC_BOOTSTRAP=1
    test_target -Z build-std=std,panic_abort,panic_unwind,test \
        -Z build-std-features=panic-unwind --config 'source.crates-io.replace-with="vendored"' \
        --config "source.vendored.directory=\"$(CDPATH='' cd -- "$vendored" && pwd -P)\""
}

# Each in a shell of its own, so that the variables of one do not change the other.
(musl)
(arm)
