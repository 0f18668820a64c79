# Shared by the tests of the package for Python: where things are, and how the package is built. The first argument
# names the folder of the static library.
# shellcheck shell=bash
here="$(cd "$(dirname "${BASH_SOURCE[0]}")" && pwd)"
top="$(cd "$here/../.." && pwd)"
library="$(cd "$1" && pwd)/libgix_mailmap.a"
work="$(mktemp -d)"
trap 'rm -rf "$work"' EXIT
export PYTHONDONTWRITEBYTECODE=1 PIP_DISABLE_PIP_VERSION_CHECK=1 SOURCE_DATE_EPOCH=315532800
unset PYTHONPATH PYTHON
export GIX_MAILMAP_LIBRARY="$library"

# The Python that builds, as the Makefile finds it.
builder="$(make --no-print-directory -s -C "$top" which_python)"
export SETUP_PYTHON="$builder"
python="$("$builder" -c 'import sys; print(sys.executable)')"
include="$("$python" -c 'import sysconfig; print(sysconfig.get_path("include"))')"
cd "$work"
