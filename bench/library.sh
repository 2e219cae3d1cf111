# Proves and builds bench/replies/lib.rt.in, a static library over the port for the measurements.
# The scripts of bench/ source this file at the top of the repository. It sets $library and
# $kit_library, the libraries that a program is linked with, and $made, the folder for all output.
# Needs the kit's rt. Crates of the repository that are not built yet are proved and built first.
made=$PWD/out/bench
crate=$made/reply_bench
library=$crate/out/libreply_bench.a
kit_library=$(dirname "$(rt doc)")/c/liblibc_c.a

# quietly LOG COMMAND..: runs the command with its output in the file LOG, and prints LOG if the
# command fails.
quietly() {
    log=$1
    shift
    "$@" > "$log" 2>&1 || { cat "$log" >&2; exit 1; }
}

# The library is not listed in crates.txt, and rt ci fails if there is an unlisted crate. So its
# folder exists only until the script ends. It is inside the repository because rt looks there for
# the crates that the library depends on.
trap 'rm -rf "$crate"' EXIT
trap 'exit 1' HUP INT TERM
rm -rf "$crate"
mkdir -p "$crate/src"
for source in lib read_inet read_unix; do
    cp "bench/replies/$source.rt.in" "$crate/src/$source.rt"
done
cat > "$crate/BUILD.bazel" <<'BUILD'
rattle_crate(
    name = "reply_bench",
    crate_type = "staticlib",
    deps = [
        "//crates/netlink_core",
        "//crates/netlink_packet_sock_diag",
        "//crates/sock_diag_attributes",
        "//crates/sock_diag_replies",
    ],
)
BUILD
echo "proving and building the library; log: out/bench/rt.log" >&2
(cd "$crate" && quietly "$made/rt.log" rt lib)
