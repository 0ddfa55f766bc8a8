#!/usr/bin/env bash
# Proves and builds the static library, measures it by the Rust crate, and writes RESULTS.md and the plots.
#
#   bench/run.sh            takes about twenty minutes
#   bench/run.sh --print [--sizes] [--keep-memory]
#                           prints the table, and writes nothing; the library may be another one, at the
#                           absolute path in HODKHAKI_LIBRARY
set -euo pipefail
usage() {
    echo "bench/run.sh [--print [--sizes] [--keep-memory]]" >&2
    exit 2
}
[ "$#" = 0 ] || [ "$1" = --print ] || usage
for word in "${@:2}"; do
    [ "$word" = --sizes ] || [ "$word" = --keep-memory ] || usage
done
cd "$(dirname "$0")"
if [ "$#" = 0 ] && [ -n "$(git status --porcelain -- ../crates ../crates.txt ../clients src .cargo)" ]; then
    echo "bench/run.sh: there are changes that are not committed, and RESULTS.md names a commit" >&2
    exit 1
fi
# With these, cargo would compile to another folder, or with other flags than those of .cargo.
unset CARGO_TARGET_DIR CARGO_BUILD_TARGET_DIR CARGO_BUILD_TARGET
unset RUSTFLAGS CARGO_BUILD_RUSTFLAGS CARGO_ENCODED_RUSTFLAGS CARGO_TARGET_X86_64_UNKNOWN_LINUX_GNU_RUSTFLAGS
# RESULTS.md names this commit, so its library is the one that is built here.
if [ "${1:-}" != --print ]; then
    unset HODKHAKI_LIBRARY
fi
if [ -z "${HODKHAKI_LIBRARY:-}" ]; then
    (cd ../crates/ffi_rkyv && rt lib) >&2
fi
cargo build --release --offline
program=target/release/hodkhaki_bench
if [ "${1:-}" = --print ]; then
    exec "$program" "${@:2}"
fi
tables="$(mktemp -d)"
trap 'rm -rf "$tables"' EXIT
"$program" > "$tables/all"
"$program" --sizes > "$tables/sizes"
./plot "$tables"
