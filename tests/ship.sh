#!/usr/bin/env bash
# Tests what is shipped, without the toolchain: `make install` and `make uninstall`, and the tarball. Each copy must
# work, and removing it must leave nothing. What is shipped has to be built before.
set -euo pipefail
top="$(cd "$(dirname "$0")/.." && pwd)"
work="$(mktemp -d)"
trap 'rm -rf "$work"' EXIT
. "$top/tests/ship_functions.sh"
version="$(cat "$top/VERSION")"
so=libgix_mailmap.so

# Programs have to link with libraries built with the flags of distributions, which optimize at link time. The proved
# calls aren't rebuilt, and the build goes to a directory with links to the sources. `make lib` needs a part of the
# toolchain, so this comes before the toolchain is hidden.
lto="$work/lto"
if [ -n "$(command -v rt)" ]; then
    proved=crates/gix_mailmap_c/out/libgix_mailmap_c.a
    flags=-flto
    if "${CC:-cc}" -Werror -flto=auto -ffat-lto-objects -x c -c /dev/null -o "$work/empty.o" 2> "$work/said"; then
        flags='-O2 -flto=auto -ffat-lto-objects'
    fi
    mkdir -p "$lto/out"
    ln -s "$top"/{Makefile,VERSION,c,crates,crates.txt,include,packaging} "$lto"
    make --no-print-directory -s -C "$lto" -o "$proved" lib LIB=out PROVED="$proved" CFLAGS="$flags" LDFLAGS="$flags"
    "$top/tests/c/page.py" "$top/docs/C.md" "$lto"
    "${CC:-cc}" "-I$top/include" "$lto/example.c" "$lto/out/c/libgix_mailmap.a" -o "$lto/static"
    same "the C program, static, with $flags," "$("$lto/static")" "$(cat "$lto/printed")"
    "${CC:-cc}" "-I$top/include" "$lto/example.c" "-L$lto/out/c" -lgix_mailmap -o "$lto/shared"
    same "the C program, shared, with $flags," "$(LD_LIBRARY_PATH="$lto/out/c" "$lto/shared")" "$(cat "$lto/printed")"
    (cd "$top" && CFLAGS="$flags" LDFLAGS="$flags" GIX_MAILMAP_LIBRARY="$lto/out/c/libgix_mailmap.a" \
        PYTHONDONTWRITEBYTECODE='' "$(make -s which_python)" setup.py --quiet build --build-lib "$lto/package")
    same "the Python program, with $flags," "$(PYTHONPATH="$lto/package" python3 "$lto/example.py")" \
        "$(cat "$lto/printed")"
else
    echo 'skipped: flags for optimization at link time, since the toolchain is not here'
fi

without_toolchain

# what `make build lib extension` would do after a file was edited; a missing toolchain doesn't matter
planned() {
    built -n -W "$@" build lib extension 2> "$work/said"
}
# the caller's flags for compiling and for linking
planned c/gix_mailmap.c CPPFLAGS=-DOWN CFLAGS=-g3 LDFLAGS=-Wl,-O1 > "$work/plan"
same 'make lib with flags' "$(grep -o -e '-DOWN -g3' -e '-g3 -Wl,-O1' "$work/plan")" $'-DOWN -g3\n-g3 -Wl,-O1'

# docs/C.md names files of this version
for named in "$so.$version" "$so.$(interface)\`" "gix_mailmap-$version-linux"; do
    if ! grep -qF "$named" "$top/docs/C.md"; then
        echo "ship: docs/C.md doesn't name $named"
        exit 1
    fi
done

# Directories whose names the shell or sed would interpret are refused before anything is done. If they weren't, -n
# would still do nothing.
named_so() {
    refused "make with $1=$2" 2 "*** $1 has a space or one of " built -n uninstall deb "$1=$2"
}
for folder in DESTDIR PREFIX BINDIR INCLUDEDIR LIBDIR MANDIR DOCDIR COMPLETIONSDIR PYTHONDIR RUSTDIR DIST; do
    named_so "$folder" '/x/a b'
done
for name in '/x/a ' $'/x\ta' '~/x' /x/{'&','|',\;,'<','>','(',')','*','?','[','{','}',\',\",'`',\\,'$$','#'}; do
    named_so DESTDIR "$name"
done
built -n uninstall DESTDIR='/x/0.1.0~rc1+b@c,d=e:f%g' > "$work/plan"

# make install, twice, and make uninstall: once with all directories named, and once among files of others
folders=(PREFIX=/srv/own BINDIR=/srv/bin INCLUDEDIR=/srv/own/headers LIBDIR=/srv/own/lib64 MANDIR=/srv/pages
    DOCDIR=/srv/documents COMPLETIONSDIR=/srv/completions PYTHONDIR=/srv/python)
root="$work/root"
listed() { find "$1" ! -type d -printf '%P %m %T@ %s %l\n' | sort; }
built install DESTDIR="$root" "${folders[@]}"
once="$(listed "$root")"
built install DESTDIR="$root" "${folders[@]}"
same 'make install, for the second time,' "$(listed "$root")" "$once"
wanted=(libgix_mailmap.a "$so" "$so.$(interface)" "$so.$version" pkgconfig/gix_mailmap.pc)
same 'the programs' "$(ls "$root/srv/bin" | xargs)" 'mailmap_check mailmap_shortlog mailmap_verify'
same 'the pages' "$(ls "$root/srv/pages/man1" | xargs)" 'mailmap_check.1 mailmap_shortlog.1 mailmap_verify.1'
same 'the documents' "$(ls "$root/srv/documents" | xargs)" 'C.md RUST.md VERIFY.md'
same 'what bash completes' "$(ls "$root/srv/completions" | xargs)" 'mailmap_shortlog mailmap_verify'
same 'the libraries' "$(cd "$root/srv/own/lib64" && find . ! -type d | sort)" "$(printf './%s\n' "${wanted[@]}" | sort)"
programs_answer "$root/srv/bin"
page_programs_answer 'make install' "$root" /srv/own/headers /srv/own/lib64 /srv/python
built uninstall DESTDIR="$root" "${folders[@]}"
nothing_left "$root" 'make uninstall'

built install DESTDIR="$work/usual"
programs_answer "$work/usual/usr/local/bin"
others=(bin/another lib/libanother.so include/another.h share/man/man1/another.1)
(cd "$work/usual/usr/local" && touch "${others[@]}")
built uninstall DESTDIR="$work/usual"
built uninstall DESTDIR="$work/usual"
(cd "$work/usual/usr/local" && rm "${others[@]}")
nothing_left "$work/usual" 'make uninstall beside others'
echo 'ship: make install and make uninstall passed'

# the tarball, which is reproducible
name="gix_mailmap-$version-linux-x86_64"
built dist DIST="$work/dist"
(umask 077 && built dist DIST="$work/again")
cmp "$work/dist/$name.tar.gz" "$work/again/$name.tar.gz"
same 'make dist' "$(ls "$work/dist")" "$name.tar.gz"
(umask 077 && tar -C "$work" -xzf "$work/dist/$name.tar.gz")
# everything that installing it needs
mkdir "$work/tools"
for tool in sh cat chmod cp dirname find mkdir rm rmdir sed; do
    ln -s "$(command -v "$tool")" "$work/tools"
done
installed() {
    env -i PATH="$work/tools" DESTDIR="${DESTDIR-}" "$work/$name/install.sh" "$@"
}
installed "$work/prefix"
"$top/tests/static.sh" "$work/prefix/bin/"{mailmap_check,mailmap_verify,mailmap_shortlog}
"$top/tests/rust/run.py" --installed "$work/prefix"
same 'what only its owner may read' "$(find "$work/prefix" ! -type l ! -perm -a=r)" ''
same 'what only its owner may run' "$(find "$work/prefix/bin" -type f ! -perm -a=x)" ''
programs_answer "$work/prefix/bin"
page_programs_answer tarball '' "$work/prefix/include" "$work/prefix/lib" "$work/prefix/share/gix_mailmap/python"
installed --uninstall "$work/prefix"
nothing_left "$work/prefix" 'install.sh --uninstall'
# a DESTDIR relative to the caller's directory
(cd "$work/prefix" && DESTDIR=dest installed /own)
programs_answer "$work/prefix/dest/own/bin"
(cd "$work/prefix" && DESTDIR=dest installed --uninstall /own)
nothing_left "$work/prefix" 'install.sh --uninstall with a DESTDIR'
# a directory with spaces, which pkg-config quotes for the shell
installed "$work/two  spaces"
if [ -n "$(command -v pkg-config)" ]; then
    eval "words=($(PKG_CONFIG_LIBDIR="$work/two  spaces/lib/pkgconfig" pkg-config --cflags --libs gix_mailmap))"
    "${CC:-cc}" "$work/page/example.c" "${words[@]}" -o "$work/page/shared"
    found="$(LD_LIBRARY_PATH="$work/two  spaces/lib" "$work/page/shared")"
    same 'the C program, with a folder with spaces,' "$found" "$(cat "$work/page/printed")"
fi
installed --uninstall "$work/two  spaces"
nothing_left "$work/two  spaces" 'install.sh --uninstall of a folder with spaces'
# its own directory, by any name
ln -s "$name" "$work/link"
own="$(listed "$work/$name")"
refused_here() {
    (cd "$work/$name" && refused "install.sh $*" 1 'install.sh: install.sh itself is in ' installed "$@")
}
refused_here .
refused_here --uninstall .
refused_here "$work/link/"
DESTDIR="$work" refused_here "/$name"
DESTDIR=. refused_here /
same 'the folder of install.sh' "$(listed "$work/$name")" "$own"
if python3 -m venv "$work/venv" 2> "$work/said" && [ -x "$work/venv/bin/pip" ]; then
    "$work/venv/bin/python" -m pip --quiet --disable-pip-version-check install --no-index "$work/$name"/*.whl
    same 'the wheel' "$(cd "$work" && venv/bin/python page/example.py)" "$(cat "$work/page/printed")"
else
    echo 'skipped: the wheel of the tarball, since pip is not here'
fi
echo "ship: $name.tar.gz passed"
