# Shared by tests of installed copies. `top` is the repository, and `work` a directory for their output.
# shellcheck shell=bash

# variables of an outer `make test` or of its caller, which would change what is installed where
unset MAKEFLAGS MFLAGS MAKEOVERRIDES DESTDIR PREFIX BINDIR INCLUDEDIR LIBDIR MANDIR DOCDIR COMPLETIONSDIR
unset PYTHONDIR RUSTDIR DIST
unset SOURCE_DATE_EPOCH MAINTAINER PYTHONPATH GIX_MAILMAP_LIBRARY ARCH LINK
# Python writes compiled files, which have to be removed, too
unset PYTHONDONTWRITEBYTECODE PYTHONPYCACHEPREFIX

# same WHAT PRINTED WANTED
same() {
    if [ "$2" != "$3" ]; then
        printf '%s prints:\n%s\nand not:\n%s\n' "$1" "$2" "$3" >&2
        exit 1
    fi
}

# Takes the toolchain out of PATH: a directory with rt is replaced by links to everything else in it.
without_toolchain() {
    local path='' folder kept=0 folders
    IFS=: read -r -a folders <<< "$PATH"
    for folder in "${folders[@]}"; do
        if [ -e "$folder/rt" ]; then
            kept=$((kept + 1))
            mkdir -p "$work/path/$kept"
            find "$folder" -mindepth 1 -maxdepth 1 ! -name rt -exec ln -s -t "$work/path/$kept" {} +
            folder="$work/path/$kept"
        fi
        path="$path:$folder"
    done
    PATH="${path#:}"
    hash -r
    if [ -n "$(command -v rt)" ]; then
        echo 'the toolchain is still there' >&2
        exit 1
    fi
}

# built TARGET ..: make, in this repository
built() {
    make --no-print-directory -s -C "$top" "$@"
}

# refused WHAT STATUS TEXT COMMAND ..: expects that the command fails with this status, and prints nothing but one error
# line that contains TEXT
refused() {
    local status=0 said
    said="$("${@:4}" 2>&1 > "$work/printed")" || status=$?
    if [[ $status != "$2" || -s $work/printed || $said == *$'\n'* || $said != *"$3"* ]]; then
        printf '%s ends with %s, prints:\n%s\nand says:\n%s\n' "$1" "$status" "$(head -n 3 "$work/printed")" "$said" >&2
        exit 1
    fi
}

# nothing_left FOLDER WHAT: expects that nothing of a copy is left, neither files nor directories with its name
nothing_left() {
    local left
    left="$(find "$1" ! -type d -print -o -name '*mailmap*' -print)"
    same "$2: what is left" "$left" ''
}

# the version number of the shared library's binary interface
interface() {
    sed -n 's/^ABI = //p' "$top/Makefile"
}

# programs_answer FOLDER: checks the output of mailmap_check and mailmap_shortlog for the sample, and of mailmap_verify
# for one line.
programs_answer() {
    local found wanted='Joe R. Developer <joe@example.com>
Joe R. Developer <joe@example.com>
Jane Doe <jane@example.com>
Jane Doe <jane@example.com>
Eve <eve@example.com>
not a contact'
    same mailmap_check "$("$1/mailmap_check" "$top/sample/mailmap" < "$top/sample/contacts")" "$wanted"
    found="$(echo 'Jane Doe <jane@example.com> jd' | "$1/mailmap_verify" - || [ $? = 1 ])"
    same mailmap_verify "$found" '<stdin>:1: warning: ignored text: jd (an old name needs an email after it) [ignored-text]'
    found="$("$1/mailmap_shortlog" -n "$top/sample/mailmap" < "$top/sample/contacts")"
    same mailmap_shortlog "$found" $'     2\tJane Doe\n     2\tJoe R. Developer\n     1\tEve'
}

# page_programs_answer WHAT ROOT INCLUDEDIR LIBDIR PYTHONDIR: builds the C program of docs/C.md against the copy under
# ROOT, with the shared and with the static library, runs its Python program, and checks that they print what the page
# shows. The directories are named as if ROOT were the whole system.
page_programs_answer() {
    local what="$1" root="$2" include="$2$3" libdir="$2$4" python="$2$5"
    local cc="${CC:-cc}" page="$work/page" wanted built found
    local flags=(-std=c11 -Wall -Wextra -Wpedantic -Werror)
    mkdir -p "$page/loaded"
    "$top/tests/c/page.py" "$top/docs/C.md" "$page"
    wanted="$(cat "$page/printed")"
    if [ -n "$(command -v pkg-config)" ]; then
        export PKG_CONFIG_LIBDIR="$libdir/pkgconfig" PKG_CONFIG_SYSROOT_DIR="$root"
        export PKG_CONFIG_ALLOW_SYSTEM_CFLAGS=1 PKG_CONFIG_ALLOW_SYSTEM_LIBS=1
        read -r -a built <<< "$(pkg-config --cflags --libs gix_mailmap)"
        same "$what: pkg-config" "$(pkg-config --modversion gix_mailmap)" "$(cat "$top/VERSION")"
    else
        echo "skipped: $what: what pkg-config says, since it is not here"
        built=("-I$include" "-L$libdir" -lgix_mailmap)
    fi
    "$cc" "${flags[@]}" "$page/example.c" "${built[@]}" -o "$page/shared"
    same "$what: the C program, shared," "$(LD_LIBRARY_PATH="$libdir" "$page/shared")" "$wanted"
    # to run, it needs only the library's name with the interface number
    ln -sf "$libdir/libgix_mailmap.so.$(interface)" "$page/loaded"
    same "$what: the C program, by the number," "$(LD_LIBRARY_PATH="$page/loaded" "$page/shared")" "$wanted"
    "$cc" "${flags[@]}" "-I$include" "$page/example.c" "$libdir/libgix_mailmap.a" -o "$page/static"
    same "$what: the C program, static," "$("$page/static")" "$wanted"
    same "$what: the Python program" "$(PYTHONPATH="$python" python3 "$page/example.py")" "$wanted"
    found="$(PYTHONPATH="$python" python3 -c 'from importlib import metadata; print(metadata.version("gix-mailmap"))')"
    same "$what: the Python package" "$found" "$(cat "$top/VERSION")"
}
