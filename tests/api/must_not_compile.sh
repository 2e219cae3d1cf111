#!/bin/sh
# Checks that a name borrowed from a view cannot outlive the bytes: a function that uses such a name
# must not compile. The compiler rejects it before the prover runs, so it is no edit of tests/edits.
# The script adds the function to a copy of the crate, over the libraries that `rt ci` or `rt lib`
# left. The gate runs it.
set -eu
top=$(CDPATH='' cd -- "$(dirname -- "$0")/../.." && pwd)
work=$(mktemp -d)
trap '[ $? = 0 ] || echo "$0: failed" >&2; rm -rf "$work"' EXIT
for part in src specs proofs; do cp -R "$top/crates/sock_diag_replies/$part" "$work"; done
cd "$work"

cat >>src/unix/reply.rt <<'END'

/// Uses a name after its bytes were dropped.
pub fn outlived(alloc: std::alloc::Global, header: &[u8]) -> Result<usize, DecodeError> {
    let name = {
        let ended = Vec::from_slice(alloc, header)?;
        UnixResponseView::parse(ended.as_slice())?.name()
    };
    match name {
        Some(crate::unix::nlas::NameView::Pathname(path)) => Ok(path.len()),
        _ => Ok(0),
    }
}
END

"$top/tests/over_gate.sh" sock_diag_replies check --only unix::reply::outlived >log 2>&1 || true
if ! grep -q 'src/unix/reply.rt:.*`ended` does not live long enough' log; then
    tail -n 20 log >&2
    echo "must_not_compile: a name that outlives its bytes was not rejected" >&2
    exit 1
fi
echo "must_not_compile: a name that outlives its bytes was rejected, as expected"
