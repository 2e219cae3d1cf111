#!/bin/sh
# fetch_targets.sh FOLDER: gets the tools of erased_targets.sh, and of `tools/build lister`, from
# the packages of Debian 12 for amd64, and unpacks them in FOLDER: rustc with Rust's library for
# x86-64 and arm64 and the sources of this library, a C compiler for arm64, qemu, musl, and a linker
# and a C library for WebAssembly. Packages that these need and that the machine has are left out.
# With cargo, it compiles Rust's library for WebAssembly, in some two minutes. Needs apt, dpkg and a
# network, and no root; nothing else of the machine changes. Fetches some 300 MB, and FOLDER then
# has 950 MB. Its folder `bin` has the programs.
set -eu
trap '[ $? = 0 ] || echo "$0: failed" >&2' EXIT
mkdir -p "$1/bin" "$1/apt/lists/partial" "$1/apt/archives/partial"
root=$(CDPATH='' cd -- "$1" && pwd)

# Runs a program of apt with lists and archives of its own, and with both architectures.
apt() {
    program=$1
    shift
    "$program" -qq -o APT::Architectures::=amd64 -o APT::Architectures::=arm64 \
        -o Dir::State="$root/apt" -o Dir::State::status=/var/lib/dpkg/status \
        -o Dir::Cache="$root/apt" -o Debug::NoLocking=1 -o APT::Sandbox::User= "$@"
}

# wrap NAME: makes bin/NAME, which runs usr/bin/NAME with the libraries of the folder.
wrap() {
    cat >"$root/bin/$1" <<END
#!/bin/sh
LD_LIBRARY_PATH='$root/usr/lib/x86_64-linux-gnu' exec '$root/usr/bin/$1' "\$@"
END
    chmod 755 "$root/bin/$1"
}

apt apt-get update
# The package with the libraries of rustc, which has the version in its name. These packages are
# fetched even if the machine has them: rustc and musl-gcc need all of their files in one folder.
libraries=$(apt apt-cache depends libstd-rust-web-dev |
    sed -n 's/^ *Depends: \(libstd-rust-web-[0-9.]*\)$/\1/p')
apt apt-get install --reinstall --download-only --no-install-recommends --yes \
    rustc-web "$libraries" libstd-rust-web-dev rust-web-src \
    gcc-aarch64-linux-gnu libc6-dev-arm64-cross qemu-user-static musl musl-dev musl-tools \
    lld-22 wasi-libc
# Of arm64 only the library: its dependencies are programs' at run time.
(cd "$root/apt/archives" && apt apt-get download libstd-rust-web-dev:arm64)
for package in "$root/apt/archives/"*.deb; do dpkg -x "$package" "$root"; done
# Not needed: packages, lists, qemu for other processors, and the sources of rustc.
rm -rf "$root/apt"
find "$root/usr/bin" -name 'qemu-*' ! -name 'qemu-aarch64-static' -delete
find "$root/usr/src" -mindepth 2 -maxdepth 2 ! -name library -exec rm -rf {} +

# These have paths from the root of the machine.
for text in bin/musl-gcc lib/x86_64-linux-musl/musl-gcc.specs aarch64-linux-gnu/lib/libc.so; do
    sed -i "s|\([ \"(L]\)/usr/|\1$root/usr/|g" "$root/usr/$text"
done
# The name by which rustc calls the linker for WebAssembly.
ln -sf lld-22 "$root/usr/bin/rust-lld"
for name in rustc rustdoc aarch64-linux-gnu-gcc musl-gcc qemu-aarch64-static rust-lld; do
    [ ! -e "$root/usr/bin/$name" ] || wrap "$name"
done

# Rust's library for WebAssembly, with the names that it has in rustc's folder. Debian has none.
command -v cargo >/dev/null || exit 0
target=wasm32-wasip1 sources=$root/usr/lib/rustlib/src/rust/library empty=$root/empty
library=$root/usr/lib/rustlib/$target/lib
mkdir -p "$library/self-contained" "$empty/src"
cp -t "$library/self-contained" "$root/usr/lib/wasm32-wasi/crt1-command.o" \
    "$root/usr/lib/wasm32-wasi/libc.a"
printf '[package]\nname = "empty"\n' >"$empty/Cargo.toml"
: >"$empty/src/lib.rs"
# -Z is for nightly versions otherwise. Programs are optimized together with the library, and do not
# contain the name of the folder.
(cd "$empty" && PATH=$root/bin:$PATH RUSTC=$root/bin/rustc RUSTC_BOOTSTRAP=1 \
    CARGO_ENCODED_RUSTFLAGS=$(printf -- '-Cembed-bitcode\037--remap-path-prefix=%s=library' \
        "$sources") CARGO_TARGET_DIR=$empty/target cargo build --quiet --release --offline \
    --target "$target" -Z build-std=std,panic_abort -Z build-std-features= \
    --config 'source.crates-io.replace-with="vendored"' \
    --config "source.vendored.directory=\"$(CDPATH='' cd -- "$sources/vendor" && pwd -P)\"")
rm "$empty/target/$target/release/deps/libempty"*
cp -t "$library" "$empty/target/$target/release/deps/"*.rlib
rm -r "$empty"
