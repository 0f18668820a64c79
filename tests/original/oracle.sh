#!/usr/bin/env bash
# Builds the program over the Rust original, and prints its path.
#
#     oracle.sh [OPTION ..]
#
# The crate gix-mailmap 0.36.1, and what it depends on, come from crates.io. The options go to `cargo fetch` and to
# `cargo build`. With them, local copies take the place of crates.io: either those that cargo wrote where crates.io can
# be reached,
#
#     cargo vendor --manifest-path tests/original/oracle/Cargo.toml /DIR > /FILE
#     oracle.sh --offline --config /FILE
#
# or any folders with crates, one for each that would have to come from crates.io, here or as `[patch.crates-io]` in
# FILE:
#
#     oracle.sh --offline --config 'patch.crates-io.gix-mailmap.path="/DIR"' --config 'patch.crates-io.bstr.path="/DIR"'
#
# If there is no cargo here, or the crates can't be had, it says so in one line and ends with 77. If the program doesn't
# compile, cargo says why, and it ends with cargo's status. oracle/out and oracle/Cargo.lock are cargo's, and may be
# removed.
set -euo pipefail
package="$(cd "$(dirname "$0")/oracle" && pwd)"

left_out() {
    echo "no program over the original: $1" >&2
    exit 77
}

command -v cargo > /dev/null || left_out 'there is no cargo here'
if ! said="$(cargo fetch --manifest-path "$package/Cargo.toml" "$@" 2>&1)"; then
    case "$said" in
        *'failed to download'* | *'failed to query'*) left_out "crates.io can't be reached" ;;
        *) left_out "$(grep -m 1 '^error' <<< "$said")" ;;
    esac
fi
cargo build --quiet --release --manifest-path "$package/Cargo.toml" --target-dir "$package/out" "$@" >&2
echo "$package/out/release/oracle"
