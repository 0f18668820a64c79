#!/usr/bin/env bash
# Builds the Debian packages without the toolchain, and tests them: lintian judges them, and they are unpacked. Then
# they are installed, upgraded and removed in a copy of this system, in memory. What they pack has to be built before.
set -euo pipefail
top="$(cd "$(dirname "$0")/.." && pwd)"
work="$(mktemp -d)"
trap 'rm -rf "$work"' EXIT
. "$top/tests/ship_functions.sh"
version="$(cat "$top/VERSION")"
packages=(libgix-mailmap-dev libgix-mailmap1 mailmap-tools python3-gix-mailmap)

same 'the version of debian/changelog' "$(sed -n '1s/.*(\(.*\)).*/\1/p' "$top/debian/changelog")" "$version"
for package in "${packages[@]}"; do
    if ! grep -qF "${package}_${version}_amd64.deb" "$top/docs/C.md"; then
        echo "debian: docs/C.md doesn't name ${package}_${version}_amd64.deb"
        exit 1
    fi
done

without_toolchain
make="$(command -v make)"
mkdir "$work/tools"
for tool in sh cat; do
    ln -s "$(command -v "$tool")" "$work/tools"
done
refused 'make deb without debhelper' 2 'make deb: no debhelper here' \
    env PATH="$work/tools" "$make" --no-print-directory -s -C "$top" -o build -o lib -o extension deb DIST="$work/none"
if [ -z "$(command -v dh)" ] || ! dpkg-checkbuilddeps "$top/debian/control"; then
    echo 'skipped: the Debian packages, since a build dependency is not here'
    echo 'debian: 1 passed, 0 failed'
    exit 0
fi

# packed FOLDER WORD ..: make deb with these words
packed() {
    if ! built deb "DIST=$1" "${@:2}" > "$work/said" 2>&1; then
        tail -n 40 "$work/said"
        exit 1
    fi
}

# the same packages each time
packed "$work/deb"
(umask 077 && packed "$work/again")
debs=("${packages[@]/%/_${version}_amd64.deb}")
same 'make deb' "$(cd "$work/deb" && ls ./*.deb)" "$(printf './%s\n' "${debs[@]}")"
for deb in "${debs[@]}"; do
    cmp "$work/deb/$deb" "$work/again/$deb"
    same "$deb" "$(dpkg-deb -f "$work/deb/$deb" Version Architecture)" "Version: $version
Architecture: amd64"
done
same 'the folders that make deb leaves' "$(find "$work/deb" -mindepth 1 -type d)" ''
maintainer="Pat O'Brien & Sons | Co <p@x>"
packed "$work/again" MAINTAINER="$maintainer"
same 'the maintainer' "$(dpkg-deb -f "$work/again/${debs[0]}" Maintainer)" "$maintainer"
same 'who made the packages' "$(sed -n 's/^Changed-By: //p' "$work/again/"*.changes)" "$maintainer"

if [ -n "$(command -v lintian)" ]; then
    lintian --allow-root --fail-on error,warning "$work/deb/gix-mailmap_${version}_amd64.changes"
else
    echo 'skipped: what lintian says of the packages, since it is not here'
fi

# unpacked
root="$work/root"
mkdir "$work/control" "$work/parts" "$work/earlier"
for deb in "${debs[@]}"; do
    dpkg-deb -x "$work/deb/$deb" "$root"
    dpkg-deb -e "$work/deb/$deb" "$work/control/$deb"
    (cd "$root" && md5sum --quiet -c "$work/control/$deb/md5sums")
done
pages=(mailmap_check.1.gz mailmap_shortlog.1.gz mailmap_verify.1.gz)
same 'the manual pages' "$(ls "$root/usr/share/man/man1")" "$(printf '%s\n' "${pages[@]}")"
programs_answer "$root/usr/bin"
page_programs_answer 'the Debian packages' "$root" /usr/include /usr/lib/x86_64-linux-gnu /usr/lib/python3/dist-packages

# the packages as those of an earlier version, and as the one package that earlier commits had
for deb in "${debs[@]}"; do
    dpkg-deb -R "$work/deb/$deb" "$work/parts/$deb"
    sed -i "s/\\b$version\\b/0.0.1/" "$work/parts/$deb/DEBIAN/control"
    dpkg-deb --root-owner-group -b "$work/parts/$deb" "$work/earlier" > "$work/said"
done
mkdir "$root/DEBIAN"
printf '%s\n' 'Package: gix-mailmap' 'Version: 0.0.1' 'Architecture: amd64' 'Maintainer: x <x@x>' 'Description: all' \
    > "$root/DEBIAN/control"
dpkg-deb --root-owner-group -b "$root" "$work/all.deb" > "$work/said"

# A copy of this system: what is written in it is in memory, and goes away with the mounts.
copy_of_system() {
    mkdir -p "$work/memory"
    mount -t tmpfs tmpfs "$work/memory"
    mkdir "$work/memory/written" "$work/memory/work" "$work/memory/root"
    mount -t overlay overlay -o "lowerdir=/,upperdir=$work/memory/written,workdir=$work/memory/work" "$work/memory/root"
    for folder in dev proc; do
        mount --rbind "/$folder" "$work/memory/root/$folder"
    done
    mount --bind "$top" "$work/memory/root/opt"
    mount --bind "$work" "$work/memory/root/mnt"
}
in_copy() {
    copy_of_system
    chroot "$work/memory/root" env -i HOME=/root LC_ALL=C.UTF-8 PATH=/usr/sbin:/usr/bin:/sbin:/bin "$@"
}
export -f copy_of_system in_copy
export top work
if ! unshare --mount bash -ec 'in_copy dpkg --version' > "$work/said" 2>&1; then
    echo 'skipped: the installed packages, since no copy of this system can be mounted, as root can'
    echo 'debian: 2 passed, 0 failed'
    exit 0
fi
unshare --mount bash -ec 'in_copy /opt/tests/debian_installed.sh'
# what is named and refused, the packages, and the installed ones
echo 'debian: 3 passed, 0 failed'
