#!/usr/bin/env bash
# Checks that all sources, definitions and proofs are laid out as `rt fmt` lays them out, which the gate demands.
set -euo pipefail
cd "$(dirname "$0")/.."
work="$(mktemp -d)"
trap 'rm -rf "$work"' EXIT
tar -c --exclude=out crates crates.txt | tar -xC "$work"
for crate in "$work"/crates/*/; do
    (cd "$crate" && rt fmt) | sed "s|^|$(basename "$crate"): |"
done
diff -r --exclude=out --brief crates "$work/crates"
