#!/usr/bin/env bash
# Installs programs, libraries, header and package into a folder, and runs the programs of the sample and of docs/C.md
# over that copy.
set -euo pipefail
top="$(cd "$(dirname "$0")/../.." && pwd)"
work="$(mktemp -d)"
trap 'rm -rf "$work"' EXIT
. "$top/tests/ship_functions.sh"
prefix=/usr/local
make -s -C "$top" install DESTDIR="$work/root" PREFIX="$prefix"
programs_answer "$work/root$prefix/bin"
page_programs_answer installed "$work/root" "$prefix/include" "$prefix/lib" "$prefix/share/gix_mailmap/python"
echo 'installed: the programs of docs/C.md print what it says'
