#!/usr/bin/env bash
# Compares what libgit2 and this library answer with the stored table, beside_libgit2.txt, and that one with docs/C.md.
#
#     beside_libgit2.sh LIBRARIES            LIBRARIES is the folder of libgix_mailmap.a
#     beside_libgit2.sh LIBRARIES --write    stores the table, and puts it into docs/C.md
#
# If libgit2 isn't there, the stored table is compared with the page only. If libgit2 is of another version than the stored
# one, its answers are left out of the comparison.
set -euo pipefail
library="$(cd "$1" && pwd)"
here="$(cd "$(dirname "$0")" && pwd)"
stored="$here/beside_libgit2.txt"
page="$here/../../docs/C.md"
work="$(mktemp -d)"
trap 'rm -rf "$work"' EXIT

same() {
    if ! diff -u "$1" "$2"; then
        echo "beside libgit2: $3"
        exit 1
    fi
}

# the page with the table in it, and the table that is in it
with_table() {
    awk -v rows="$1" '
        /^<!-- end of libgit2 -->$/ { inside = 0; print "" }
        !inside { print }
        /^<!-- libgit2 -->$/ { inside = 1; print ""; while ((getline row < rows) > 0) print row }' "$page"
}
table_of_page() {
    sed -n '/^<!-- libgit2 -->$/,/^<!-- end of libgit2 -->$/{/^|/p}' "$page"
}

# the first line of the stored file is the version
version() { head -n 1 "$1"; }
without_libgit2() { sed 1d "$1" | cut -d '|' -f 2-4,6; }

flags=(-std=c11 -Wall -Wextra -Wpedantic -Werror -g -I "$here/../../include")
echo '#include <git2.h>' > "$work/there.c"
if "${CC:-cc}" -fsyntax-only "$work/there.c" 2> /dev/null; then
    "${CC:-cc}" "${flags[@]}" "$here/beside_libgit2.c" "$library/libgix_mailmap.a" -lgit2 -o "$work/beside"
    "$work/beside" --version > "$work/table"
    "$work/beside" >> "$work/table"
    if [ "${2:-}" = --write ]; then
        cp "$work/table" "$stored"
        sed 1d "$stored" > "$work/rows"
        with_table "$work/rows" > "$work/page"
        cp "$work/page" "$page"
    elif [ "$(version "$work/table")" = "$(version "$stored")" ]; then
        same "$stored" "$work/table" 'other answers'
    else
        echo "skipped: the answers of libgit2, since $(version "$work/table") is here, and not $(version "$stored")"
        without_libgit2 "$stored" > "$work/stored_here"
        without_libgit2 "$work/table" > "$work/answered_here"
        same "$work/stored_here" "$work/answered_here" 'other answers'
    fi
else
    echo 'skipped: the answers of libgit2, since it is not here'
fi
sed 1d "$stored" > "$work/rows"
table_of_page > "$work/shown"
same "$work/rows" "$work/shown" 'docs/C.md has another table'
