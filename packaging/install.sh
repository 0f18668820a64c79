#!/bin/sh
# install.sh PREFIX: installs the files next to it under PREFIX. install.sh --uninstall PREFIX: removes them. With
# DESTDIR in the environment, both use PREFIX under that folder, for a package.
set -eu
umask 022
usage() {
    echo 'usage: install.sh [--uninstall] PREFIX' >&2
    exit 2
}

action=install
if [ "${1-}" = --uninstall ]; then
    action=uninstall
    shift
fi
[ $# = 1 ] || usage
case "$1" in
    /*) prefix="${1%/}" ;;
    '' | -*) usage ;;
    *) prefix="$(pwd)/${1%/}" ;;
esac
case "${DESTDIR-}" in
    '' | /*) root="${DESTDIR-}$prefix" ;;
    *) root="$(pwd)/$DESTDIR$prefix" ;;
esac
cd "$(dirname "$0")"

# A file is removed before it is copied, so it can't be copied onto itself.
if [ "$root/" -ef . ]; then
    echo "install.sh: install.sh itself is in $root, so that can't be the PREFIX" >&2
    exit 1
fi

# the files to install: none in this tarball has spaces in its name
files="$(find bin include lib share ! -type d)"

install_all() {
    for file in $files; do
        mkdir -p "$root/$(dirname "$file")"
        rm -f "$root/$file"
        cp -P "$file" "$root/$file"
        [ -h "$root/$file" ] || chmod u=rwX,go=rX "$root/$file"
    done
    { echo "prefix=$prefix" && sed 1d lib/pkgconfig/gix_mailmap.pc; } > "$root/lib/pkgconfig/gix_mailmap.pc"
}

# Folders that others may use, such as bin, stay.
uninstall_all() {
    for file in $files; do
        rm -f "$root/$file"
    done
    own="$root/share/gix_mailmap"
    rm -rf "$own/python/gix_mailmap/__pycache__"
    for folder in "$own"/python/gix_mailmap*/ "$own/python" "$own/rust/gix_mailmap/src" "$own/rust/gix_mailmap" \
        "$own/rust" "$own" "$root/share/doc/gix_mailmap"; do
        rmdir "$folder" 2> /dev/null || true
    done
}

"${action}_all"
