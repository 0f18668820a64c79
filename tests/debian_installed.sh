#!/usr/bin/env bash
# Installs, upgrades and removes the Debian packages. tests/debian.sh calls this in a copy of the system, in which /opt
# is this repository, and /mnt has the packages: the one of earlier commits, an earlier version, and today's.
set -euo pipefail
top=/opt
work=/mnt
. "$top/tests/ship_functions.sh"
version="$(cat "$top/VERSION")"
packages=(libgix-mailmap-dev libgix-mailmap1 mailmap-tools python3-gix-mailmap)

# quiet COMMAND ..: what it prints is shown only if it fails
quiet() {
    if ! "$@" > "$work/said" 2>&1; then
        tail -n 40 "$work/said"
        exit 1
    fi
}

# installed FOLDER VERSION: installs the packages in a folder, and expects that everything in them works
installed() {
    quiet dpkg --install "$1"/*.deb
    found="$(dpkg-query -W -f '${Package} ${Version}\n' "${packages[@]}")"
    same 'the packages' "$found" "$(printf "%s $2\n" "${packages[@]}")"
    # a system may leave out pages
    same 'files that differ' "$(dpkg --verify "${packages[@]}" | grep -v ' /usr/share/\(man\|doc\)/' || true)" ''
    programs_answer /usr/bin
    same 'where a program is' "$(command -v mailmap_check)" /usr/bin/mailmap_check
    # with no folder named anywhere
    flags=(-lgix_mailmap)
    if [ -n "$(command -v pkg-config)" ]; then
        read -r -a flags <<< "$(pkg-config --cflags --libs gix_mailmap)"
    fi
    cc "$work/page/example.c" "${flags[@]}" -o "$work/page/shared"
    same 'the C program, shared,' "$("$work/page/shared")" "$(cat "$work/page/printed")"
    cc "$work/page/example.c" -l:libgix_mailmap.a -o "$work/page/static"
    same 'the C program, static,' "$("$work/page/static")" "$(cat "$work/page/printed")"
    same 'the Python program' "$(cd / && python3 "$work/page/example.py")" "$(cat "$work/page/printed")"
    found="$(cd / && python3 -c 'from importlib import metadata; print(metadata.version("gix-mailmap"))')"
    same 'the version of the package for Python' "$found" "$version"
}

quiet dpkg --purge "${packages[@]}"
there() { find /usr /etc /var -xdev -name '*mailmap*' | sort; }
before="$(there)"
mkdir -p "$work/page"
"$top/tests/c/page.py" "$top/docs/C.md" "$work/page"
quiet dpkg --install "$work/all.deb"
installed "$work/earlier" 0.0.1
same 'the one package of all files' "$(dpkg-query -W -f '${db:Status-Status}' gix-mailmap)" not-installed
installed "$work/deb" "$version"
if dpkg --remove libgix-mailmap1 > "$work/said" 2>&1; then
    echo 'the shared library is removed, although packages need it' >&2
    exit 1
fi
quiet dpkg --purge libgix-mailmap-dev libgix-mailmap1 mailmap-tools
same 'the Python program, alone,' "$(cd / && python3 "$work/page/example.py")" "$(cat "$work/page/printed")"
quiet dpkg --purge python3-gix-mailmap
same 'what is left' "$(there)" "$before"
echo 'debian: the packages are installed, upgraded and removed'
