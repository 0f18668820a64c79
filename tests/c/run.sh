#!/usr/bin/env bash
# Tests the libraries in the folder that the first argument names. Both must export what the header declares and nothing
# else, and the header must have the version of the file VERSION. gcc and clang, if they are installed, must compile the
# header in each standard, and the fragments of programs on the pages. The C tests are built against the static library
# and run: without tools, under memcheck, if it is installed, and under the sanitizers that the compiler has; those with
# threads also under helgrind. Then a C++ program over the header is run, if there is a C++ compiler. Finally, the
# answers are compared with those of libgit2, if it is installed.
set -euo pipefail
library="$(cd "$1" && pwd)"
here="$(cd "$(dirname "$0")" && pwd)"
work="$(mktemp -d)"
trap 'rm -rf "$work"' EXIT
cc="${CC:-cc}"
strict=(-Wall -Wextra -Wpedantic -Werror -g -I "$here/../../include")
wrapped=(-Wl,--wrap=malloc -Wl,--wrap=realloc -Wl,--wrap=free)

header="$here/../../include/gix_mailmap.h"
if ! grep -qxF "#define GIX_MAILMAP_VERSION \"$(cat "$here/../../VERSION")\"" "$header"; then
    echo 'the header has another version than the file VERSION'
    exit 1
fi
declared="$(grep -v '^ \*\|^/\*\|^#' "$header" | grep -o '\bgix_mailmap_[a-z_]*(' | tr -d '(' | sort)"
shows() {
    if [ "$declared" != "$2" ]; then
        printf 'the header declares:\n%s\n%s shows:\n%s\n' "$declared" "$1" "$2"
        exit 1
    fi
}
shows 'the shared library' "$(nm -D --defined-only "$library/libgix_mailmap.so" | awk '{ print $NF }' | sort)"
shows 'the static library' "$(nm -g --defined-only "$library/libgix_mailmap.a" | awk 'NF == 3 { print $NF }' | sort)"

"$here/fragments.py" > "$work/fragments.c"
reads() {
    "$1" "${strict[@]}" -fsyntax-only "${@:2}"
}
for compiler in gcc clang; do
    if [ -n "$(command -v "$compiler")" ]; then
        for standard in c99 c11; do
            reads "$compiler" -x c "-std=$standard" "$header"
        done
        reads "$compiler" -std=c11 -Wno-unused "$work/fragments.c"
    else
        echo "skipped: the header by $compiler, since it is not here"
    fi
done
for compiler in g++ clang++; do
    if [ -n "$(command -v "$compiler")" ]; then
        for standard in c++11 c++17; do
            reads "$compiler" -x c++ "-std=$standard" "$header"
        done
    else
        echo "skipped: the header by $compiler, since it is not here"
    fi
done

# whether the compiler accepts a statement
takes() {
    cat > "$work/use.c" <<END
#include "gix_mailmap.h"
void use(gix_mailmap *map, const gix_mailmap *read, char *out, size_t *len);
void use(gix_mailmap *map, const gix_mailmap *read, char *out, size_t *len)
{
    if (map != NULL && read != NULL && out != NULL && len != NULL) {
        $1
    }
}
END
    "$compiler" -std=c11 "${strict[@]}" -c "$work/use.c" -o "$work/use.o" 2> "$work/said"
}
# what the compiler must reject because of the header, and a word of its message
refused() {
    if takes "$1" || ! grep -qE "$2" "$work/said"; then
        echo "$compiler accepts, or rejects for another reason: $1"
        exit 1
    fi
}
statuses="$(grep -c '^gix_mailmap_status gix_mailmap_' "$header")"
if [ "$(grep -c 'GIX_MAILMAP_MUST_CHECK;$' "$header")" != "$statuses" ]; then
    echo 'the status of some call may be ignored: it has no GIX_MAILMAP_MUST_CHECK'
    exit 1
fi
for compiler in "$cc" clang; do
    if [ -z "$(command -v "$compiler")" ]; then
        continue
    fi
    if ! takes 'out[0] = (char)gix_mailmap_write(read, out, 1, len);'; then
        cat "$work/said"
        exit 1
    fi
    refused 'gix_mailmap_add(map, "", 0);' unused-result
    refused 'out[0] = (char)gix_mailmap_write(NULL, out, 1, len);' nonnull
    refused 'out[0] = (char)gix_mailmap_write(map, out, 1, NULL);' nonnull
    refused 'out[0] = (char)gix_mailmap_add(read, "", 0);' 'discards|discarded'
    refused 'gix_mailmap copy = *map;' incomplete
    # a file, since at the end of a pipe `grep -q` would end the compiler early
    "$compiler" -Q --help=warnings > "$work/warnings" 2> "$work/said" || true
    if grep -q Wrestrict "$work/warnings"; then
        refused 'out[0] = (char)gix_mailmap_compact(out, 8, out, 8, len);' restrict
    fi
done

# four threads; the arguments go to the compiler
threads() {
    "$cc" -std=c11 "${strict[@]}" "$@" "$here/threads.c" "$library/libgix_mailmap.a" -pthread -o "$work/threads"
    "$work/threads" 4 10
}

# every call with every status, and the stored answers of the original
tests() {
    "$cc" -std=c11 "${strict[@]}" "$@" "$here/calls.c" "$library/libgix_mailmap.a" "${wrapped[@]}" -o "$work/calls"
    "$work/calls"
    "$cc" -std=c11 "${strict[@]}" "$@" "$here/stored.c" "$library/libgix_mailmap.a" -o "$work/stored"
    "$here/../original/compare.py" "$work/stored" "$work/stored"
    "$here/reported.py" "$work/stored"
}

echo 'int main(void) { return 0; }' > "$work/empty.c"
# whether the compiler has a sanitizer
has() {
    "$cc" "$@" "$work/empty.c" -o "$work/empty" 2> "$work/said" && "$work/empty"
}

tests
if [ -n "$(command -v valgrind)" ]; then
    valgrind --quiet --leak-check=full --error-exitcode=1 "$work/calls"
else
    echo 'skipped: calls from C under memcheck, since valgrind is not here'
fi

# No contract says that a call succeeds if there is memory, so the tests must fail if one never does.
for call in open stream_open; do
    cat > "$work/wrong.c" <<END
#include "gix_mailmap.h"
gix_mailmap_status __wrap_gix_mailmap_$call(void **made, const char *text, size_t text_len);
gix_mailmap_status __wrap_gix_mailmap_$call(void **made, const char *text, size_t text_len)
{
    *made = NULL;
    (void)text, (void)text_len;
    return GIX_MAILMAP_OUT_OF_MEMORY;
}
END
    "$cc" -std=c11 "${strict[@]}" "$here/calls.c" "$work/wrong.c" "$library/libgix_mailmap.a" "${wrapped[@]}" \
        "-Wl,--wrap=gix_mailmap_$call" -o "$work/wrong"
    { "$work/wrong" > "$work/said" 2>&1; } 2> "$work/shell" || true
    if ! grep -q "gix_mailmap_$call(.*GIX_MAILMAP_OK" "$work/said"; then
        echo "calls.c passes with a gix_mailmap_$call that is always out of memory"
        exit 1
    fi
done

sanitizers=(-fsanitize=address,undefined -fno-sanitize-recover=all)
if has "${sanitizers[@]}"; then
    tests "${sanitizers[@]}"
else
    echo 'skipped: calls from C under the sanitizers, since the compiler has none here'
fi

threads
# The thread sanitizer sees accesses of the program and of the C library; helgrind also sees those of this library.
if has -fsanitize=thread; then
    threads -fsanitize=thread
else
    echo 'skipped: threads under the thread sanitizer, since the compiler has none here'
fi
if [ -n "$(command -v valgrind)" ]; then
    threads -O1
    valgrind --quiet --tool=helgrind --error-exitcode=1 "$work/threads" 4 1
else
    echo 'skipped: threads under helgrind, since valgrind is not here'
fi

if [ -n "$(command -v c++)" ]; then
    c++ "${strict[@]}" "$here/uses.cpp" "$library/libgix_mailmap.a" -o "$work/uses"
    "$work/uses"
    echo 'calls from C++: passed'
else
    echo 'skipped: calls from C++, since there is no C++ compiler here'
fi

"$here/beside_libgit2.sh" "$library"
