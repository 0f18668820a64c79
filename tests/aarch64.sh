#!/usr/bin/env bash
# Runs what is built for aarch64 by an emulator.
#
#     aarch64.sh programs     alone in a folder, on the stored cases of the original, and on a million contacts
#     aarch64.sh verify       mailmap_verify on its stored cases
#     aarch64.sh suggest      mailmap_verify --suggest on its stored cases
#     aarch64.sh shortlog     mailmap_shortlog on its stored cases
#     aarch64.sh failures     all programs when files and streams fail
#     aarch64.sh libraries    the C tests, and the programs of docs/C.md
#     aarch64.sh packages     the tarball and the Debian packages
#     aarch64.sh wheel        the wheel, in a Python for aarch64
#
# It needs Debian's gcc-aarch64-linux-gnu and qemu-user-static, and what `make proved build lib extension ARCH=aarch64`
# builds. AARCH64_ROOT may name a folder with a Debian for aarch64 that has python3, for the wheel.
set -euo pipefail
top="$(cd "$(dirname "$0")/.." && pwd)"
work="$(mktemp -d)"
trap 'rm -rf "$work"' EXIT
. "$top/tests/ship_functions.sh"
cc=aarch64-linux-gnu-gcc
libc=/usr/aarch64-linux-gnu
emulator="$(command -v qemu-aarch64-static || true)"
library="$top/crates/gix_mailmap_c/out/aarch64/c"
names=(mailmap_check mailmap_verify mailmap_shortlog)
# the path of a program: those that are shipped are static, too
built_at() {
    local out="$top/crates/$1/out/aarch64"
    [ "$1" = mailmap_dump ] && echo "$out/$1" || echo "$out/static/$1"
}
# left_out WHY: ends without a test
left_out() {
    printf 'skipped: nothing for aarch64 is run: %s\naarch64: 0 passed, 0 failed\n' "$1"
    exit 0
}
[ -n "$emulator" ] || left_out 'there is no qemu-aarch64-static here'
[ -n "$(command -v "$cc")" ] || left_out "there is no $cc here"
for file in "$(built_at mailmap_check)" "$(built_at mailmap_dump)" "$library/libgix_mailmap.a"; do
    [ -f "$file" ] || left_out "${file#"$top/"} is not built here"
done

# emulated NAME PROGRAM: a script with this name that runs the program
emulated() {
    printf '#!/bin/sh\nexec %s -L %s %s "$@"\n' "$emulator" "$libc" "$2" > "$1"
    chmod +x "$1"
}
mkdir "$work/bin"
for name in "${names[@]}" mailmap_dump; do
    emulated "$work/bin/$name" "$(built_at "$name")"
done
check="$work/bin/mailmap_check" verify="$work/bin/mailmap_verify" shortlog="$work/bin/mailmap_shortlog"

programs() {
    local program sums=()
    programs_answer "$work/bin"
    "$top/tests/static.sh" --by "$emulator" "$(built_at mailmap_check)" "$(built_at mailmap_verify)" \
        "$(built_at mailmap_shortlog)"
    "$top/tests/original/compare.py" "$check" "$work/bin/mailmap_dump"
    awk 'BEGIN { for (i = 0; i < 20000; i++) printf "Name %d <new%d@x> <Old%d@y>\n", i, i, i }' > "$work/map"
    awk 'BEGIN { for (i = 0; i < 1000000; i++) { n = i * 7919 % 25000; printf "name %d <old%d@Y>\n", n % 9, n } }' \
        > "$work/contacts"
    for program in "$check" "$top/crates/mailmap_check/out/static/mailmap_check"; do
        sums+=("$("$program" "$work/map" < "$work/contacts" | sha256sum)")
    done
    same 'a million contacts' "${sums[0]}" "${sums[1]}"
    echo 'a million contacts: 1 passed, 0 failed'
}

libraries() {
    local strict=(-std=c11 -Wall -Wextra -Wpedantic -Werror -I "$top/include") shown wanted
    local wrapped=(-Wl,--wrap=malloc -Wl,--wrap=realloc -Wl,--wrap=free)
    # not linked statically, since that would wrap the C library's own requests for memory, too
    "$cc" "${strict[@]}" "$top/tests/c/calls.c" "$library/libgix_mailmap.a" "${wrapped[@]}" -o "$work/calls"
    "$emulator" -L "$libc" "$work/calls"
    "$cc" -static "${strict[@]}" "$top/tests/c/threads.c" "$library/libgix_mailmap.a" -pthread -o "$work/threads"
    "$emulator" "$work/threads" 4 10
    "$cc" -static "${strict[@]}" "$top/tests/c/stored.c" "$library/libgix_mailmap.a" -o "$work/stored"
    emulated "$work/bin/stored" "$work/stored"
    "$top/tests/original/compare.py" "$work/bin/stored" "$work/bin/stored" check compact entries resolve
    mkdir "$work/page"
    "$top/tests/c/page.py" "$top/docs/C.md" "$work/page"
    wanted="$(cat "$work/page/printed")"
    "$cc" "${strict[@]}" "$work/page/example.c" "-L$library" -lgix_mailmap -o "$work/page/shared"
    shown="$("$emulator" -L "$libc" -E "LD_LIBRARY_PATH=$library" "$work/page/shared")"
    same 'the C program, shared,' "$shown" "$wanted"
    "$cc" "${strict[@]}" "$work/page/example.c" "$library/libgix_mailmap.a" -o "$work/page/static"
    same 'the C program, static,' "$("$emulator" -L "$libc" "$work/page/static")" "$wanted"
    shown="$(aarch64-linux-gnu-nm -D --defined-only "$library/libgix_mailmap.so" | awk '{ print $NF }' | sort)"
    wanted="$(sed -n 's/^ *\(gix_mailmap_[a-z_]*\);$/\1/p' "$top/include/gix_mailmap.map" | sort)"
    same 'what the shared library shows' "$shown" "$wanted"
    echo 'libraries: 6 passed, 0 failed'
}

version="$(cat "$top/VERSION")"
packages() {
    local tarball deb name root="$work/root" lib
    tarball="gix_mailmap-$version-linux-aarch64"
    built dist ARCH=aarch64 DIST="$work/dist"
    tar -C "$work" -xzf "$work/dist/$tarball.tar.gz"
    for name in "${names[@]}"; do
        cmp "$work/$tarball/bin/$name" "$(built_at "$name")"
    done
    echo 'tarball: 1 passed, 0 failed'
    [ -f "$work/$tarball/gix_mailmap-$version-cp311-abi3-manylinux_2_17_aarch64.whl" ]
    if [ -z "$(command -v dh)" ]; then
        echo 'skipped: there is no debhelper here, so no Debian package for aarch64 is built'
        return
    fi
    built deb ARCH=aarch64 DIST="$work/deb" > "$work/said" 2>&1 || { tail -n 40 "$work/said"; exit 1; }
    for deb in "$work/deb"/*.deb; do
        same "$deb" "$(dpkg-deb -f "$deb" Version Architecture)" "Version: $version
Architecture: arm64"
        dpkg-deb -x "$deb" "$root"
    done
    same 'what mailmap-tools needs' "$(dpkg-deb -f "$work/deb"/mailmap-tools_*.deb Depends)" 'libc6 (>= 2.34)'
    same 'the Debian packages' "$(cd "$work/deb" && echo ./*.deb | wc -w)" 4
    for name in "${names[@]}"; do
        emulated "$work/bin/$name" "$root/usr/bin/$name"
    done
    programs_answer "$work/bin"
    mkdir "$work/page"
    "$top/tests/c/page.py" "$top/docs/C.md" "$work/page"
    lib="$root/usr/lib/aarch64-linux-gnu"
    "$cc" "-I$root/usr/include" "$work/page/example.c" "-L$lib" -lgix_mailmap -o "$work/page/shared"
    same 'the C program' "$("$emulator" -L "$libc" -E "LD_LIBRARY_PATH=$lib" "$work/page/shared")" \
        "$(cat "$work/page/printed")"
    echo 'Debian packages: 1 passed, 0 failed'
}

wheel() {
    local python root="${AARCH64_ROOT-}"
    built wheel ARCH=aarch64 DIST="$work/wheels" 2> "$work/said" || { cat "$work/said"; exit 1; }
    python3 -m zipfile -e "$work/wheels"/*-manylinux_2_17_aarch64.whl "$work/package"
    cmp "$work/package/gix_mailmap-$version.data/scripts/mailmap_verify" "$(built_at mailmap_verify)"
    if [ -z "$root" ] || [ ! -e "$root/usr/bin/python3" ]; then
        echo 'skipped: AARCH64_ROOT names no folder with a python3 for aarch64, so the wheel is not run'
        return
    fi
    python=("$emulator" -L "$root" -E "PYTHONPATH=$work/package" "$root/usr/bin/python3")
    mkdir -p "$work/page"
    "$top/tests/c/page.py" "$top/docs/C.md" "$work/page"
    same 'the Python program' "$("${python[@]}" "$work/page/example.py")" "$(cat "$work/page/printed")"
    "${python[@]}" "$top/tests/python/calls.py"
    "${python[@]}" "$top/tests/python/stored.py" "$top/tests/original/cases.jsonl"
    echo 'wheel: 1 passed, 0 failed'
}

case "${1-}" in
    programs | libraries | packages | wheel) "$1" ;;
    verify) "$top/tests/verify/run.py" "$verify" ;;
    suggest) "$top/tests/suggest/run.py" "$verify" "$shortlog" ;;
    shortlog) "$top/tests/shortlog/run.py" "$shortlog" ;;
    failures) "$top/tests/failures.sh" "$check" "$verify" "$shortlog" ;;
    *) sed -n '2,/^set/s/^# \{0,1\}//p' "$0" && exit 2 ;;
esac
