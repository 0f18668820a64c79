#!/usr/bin/env bash
# Tests the package for Python over the static library in the folder that the first argument names: with each request
# for memory refused in turn, with many calls of each function, to find leaks, and under the address sanitizer.
set -euo pipefail
. "$(dirname "$0")/setting.sh"
make --no-print-directory -s -C "$top" extension

# Only Python itself can be started with the refusing library preloaded.
"${CC:-cc}" -std=c11 -g -fPIC -shared -Wall -Wextra -Werror "-I$include" "$here/refusing.c" -o refusing.so
env PYTHONMALLOC=malloc LD_PRELOAD="$work/refusing.so" PYTHONPATH="$top/python:$work" \
    "$python" -W error "$here/refused.py"

PYTHONPATH="$top/python" "$python" "$here/leaks.py"
PYTHONPATH="$top/python" "$python" "$here/replaced.py"

sanitizers="$("${CC:-cc}" -print-file-name=libasan.so):$("${CC:-cc}" -print-file-name=libubsan.so)"
if [[ "$sanitizers" == /*:/* ]]; then
    echo 'Python: under the address sanitizer'
    flags='-fsanitize=address,undefined -fno-sanitize-recover=all -g'
    (cd "$top" && CFLAGS="$flags" LDFLAGS="$flags" PYTHONDONTWRITEBYTECODE='' \
        "$python" setup.py --quiet build --build-lib "$work/sanitized")
    for name in calls kinds sequence stream threads interpreters; do
        env PYTHONMALLOC=malloc ASAN_OPTIONS=detect_leaks=0 LD_PRELOAD="$sanitizers" PYTHONPATH="$work/sanitized" \
            "$python" -W error "$here/$name.py"
    done
else
    echo 'skipped: the package for Python under the address sanitizer, since the compiler has none here'
fi
