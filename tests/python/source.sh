#!/usr/bin/env bash
# Tests the package for Python over the static library in the folder that the first argument names, in the source tree:
# its calls, its module by two compilers, its answers beside those of libgit2, if pygit2 is installed, and its types by
# mypy, if that is installed.
set -euo pipefail
. "$(dirname "$0")/setting.sh"

echo 'Python: the source tree'
make --no-print-directory -s -C "$top" extension
PYTHONPATH="$top/python" python3 -W error "$here/calls.py"

for compiler in gcc clang; do
    if [ -n "$(command -v "$compiler")" ]; then
        "$compiler" -std=c11 -Wall -Wextra -Werror -fsyntax-only -DPy_LIMITED_API=0x030B0000 "-I$top/include" \
            "-I$include" "$top/python/gix_mailmap/_native.c"
    else
        echo "skipped: the extension module by $compiler, since it is not here"
    fi
done
shown="$(nm -D --defined-only "$top/python/gix_mailmap/_native.abi3.so" | awk '{ print $NF }')"
if [ "$shown" != PyInit__native ]; then
    echo "the extension module exports $shown"
    exit 1
fi

with_pygit2=''
for each in python3 /usr/bin/python3; do
    ! "$each" -c 'import pygit2' 2> "$work/said" || with_pygit2="$each"
done
if [ -n "$with_pygit2" ]; then
    PYTHONPATH="$top/python" "$with_pygit2" -W error "$here/beside_pygit2.py" "$top/docs/C.md"
else
    echo 'skipped: the answers of libgit2 from Python, since pygit2 is not here'
fi

if [ -n "$(command -v mypy)" ]; then
    MYPYPATH="$top/python" mypy --strict --cache-dir "$work/mypy" -p gix_mailmap
    # for a program that uses it as an installed package
    "$python" -m venv --without-pip "$work/venv"
    echo "$top/python" > "$("$work/venv/bin/python" -c 'import sysconfig; print(sysconfig.get_path("purelib"))')/source.pth"
    mypy --strict --cache-dir "$work/mypy" --python-executable "$work/venv/bin/python" "$here/typed.py"
else
    echo 'skipped: the types of the package for Python, since mypy is not here'
fi
