#!/usr/bin/env bash
# Tests the package for Python over the static library in the folder that the first argument names: from a wheel that
# is installed into a fresh environment of each Python from 3.11 on that is installed.
set -euo pipefail
. "$(dirname "$0")/setting.sh"

# With a symbolic link in this folder, `rt ci` would refuse to start, so `make lib` must make none.
links="$(find "$top" -name .git -prune -o -type l -print)"
if [ -n "$links" ]; then
    echo "rt ci refuses links: $links"
    exit 1
fi

# all that are installed from 3.11 on, each version once
pythons() {
    local python
    for python in /usr/bin/python3 python3 python3.{11..19} "${PYENV_ROOT:-$HOME/.pyenv}"/versions/*/bin/python3; do
        "$python" -c 'import sys, venv; v = sys.version_info; v < (3, 11) or print(*v[:2], sys.executable)' \
            2> "$work/said" || true
    done | sort -s -n -k 2,2 -u | cut -d ' ' -f 3
}

# runs all tests; the arguments are environment variables, and the Python to use
tests() {
    local name
    for name in gix_mailmap gix_mailmap._results gix_mailmap._mailmap; do
        env "$@" -W error -c "import doctest, sys, $name; sys.exit(doctest.testmod(sys.modules['$name']).failed)"
    done
    env "$@" -m doctest "$top/python/README.md"
    for name in calls kinds sequence stream threads forks interpreters; do
        env "$@" -W error "$here/$name.py"
    done
    env "$@" "$here/stored.py" "$here/../original/cases.jsonl"
}

# one wheel as pip builds it, and one as make does
if "$builder" -m pip --version > "$work/said" 2>&1; then
    "$builder" -m pip --quiet wheel --no-index --no-deps --no-build-isolation --wheel-dir wheels/1 "$top"
else
    echo 'skipped: the wheel that pip builds, since pip is not here'
fi
make --no-print-directory -s -C "$top" wheel DIST="$work/wheels/2"

first=''
for each in $(pythons); do
    version="$("$each" --version)"
    echo "Python: the wheel, by $version"
    venv="$work/${version// /-}"
    "$each" -m venv "$venv"
    "$venv/bin/python" -m pip --quiet install --no-index --no-deps wheels/2/*.whl
    "$venv/bin/python" -m pip check
    tests "$venv/bin/python"
    "$venv/bin/python" -W error "$here/package.py" wheels/*/*.whl
    first="${first:-$venv}"
done
"$first/bin/python" "$here/reported.py" "$here/../verify/explained.jsonl"
