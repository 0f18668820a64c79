#!/usr/bin/env bash
# Checks the manual pages for errors and warnings, with mandoc if it is installed, else with man.
set -euo pipefail
cd "$(dirname "$0")/../man"
for page in *.1; do
    if ! grep -qx '\.SH NAME' "$page"; then
        echo "manual pages: $page has no name" >&2
        exit 1
    fi
    if [ -n "$(command -v mandoc)" ]; then
        said="$(mandoc -Tlint -W warning "$page" 2>&1 || true)"
    elif [ -n "$(command -v man)" ]; then
        said="$(man --warnings -E UTF-8 -l "$page" 2>&1 > /dev/null)" || said="${said:-man: status $?}"
    else
        echo 'skipped: the manual pages, since neither mandoc nor man is here'
        echo 'manual pages: 0 passed, 0 failed'
        exit 0
    fi
    if [ -n "$said" ]; then
        printf 'manual pages: %s:\n%s\n' "$page" "$said" >&2
        exit 1
    fi
done
echo "manual pages: $(ls *.1 | wc -l) passed, 0 failed"
