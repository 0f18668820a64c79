#!/usr/bin/env bash
# Runs the tests of the library in Rattle, compiled with checks but without proving them. The gate proves them, too.
set -euo pipefail
cd "$(dirname "$0")/../crates/gix_mailmap_tests"
said="$(mktemp)"
trap 'rm -f "$said"' EXIT
status=0
rt try --test > "$said" 2>&1 || status=$?
passed="$(grep -c '^test .*\.\.\. ok$' "$said" || true)"
failed=0
if [ "$status" != 0 ] || [ "$passed" = 0 ]; then
    failed=1
    grep -v ' ok$' "$said" | tail -n 40 || true
fi
echo "library: $passed passed, $failed failed"
[ "$failed" = 0 ]
