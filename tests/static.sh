#!/usr/bin/env bash
# static.sh [--by EMULATOR] CHECK VERIFY SHORTLOG: checks that each of the programs is one file that needs no other. No
# loader is named in it, and it runs in a folder with nothing else, which chroot makes its root.
set -euo pipefail
top="$(cd "$(dirname "$0")/.." && pwd)"
work="$(mktemp -d)"
trap 'rm -rf "$work"' EXIT
emulator=()
if [ "$1" = --by ]; then
    emulator=(/emulator)
    install -D -m 755 "$(command -v "$2")" "$work/root/emulator"
    shift 2
fi
passed=0 failed=0
# tested WHAT FOUND WANTED
tested() {
    if [ "$2" = "$3" ]; then
        passed=$((passed + 1))
    else
        failed=$((failed + 1))
        printf 'static: %s: %s\nand not: %s\n' "$1" "$2" "$3"
    fi
}

for program in "$@"; do
    name="$(basename "$program")"
    install -D -m 755 "$program" "$work/root/$name"
    tested "the loader of $name" "$(readelf -lW "$program" | grep -c -e INTERP -e DYNAMIC || true)" 0
    if [ "${#emulator[@]}" = 0 ]; then
        tested "ldd $name" "$(ldd "$program" 2>&1 || true)" '	not a dynamic executable'
    fi
done

# as root, or in a namespace in which this user is root
alone=(chroot "$work/root")
[ "$(id -u)" = 0 ] || alone=(unshare --map-root-user "${alone[@]}")
if "${alone[@]}" "${emulator[@]}" /mailmap_check --version > "$work/said" 2>&1; then
    printf 'Jane Doe <jane@x> <jd@y>\n' > "$work/root/map"
    tested 'mailmap_check alone' "$(echo 'jd <JD@y>' | "${alone[@]}" "${emulator[@]}" /mailmap_check /map)" \
        'Jane Doe <jane@x>'
    tested 'mailmap_verify alone' "$("${alone[@]}" "${emulator[@]}" /mailmap_verify /map /map || [ $? = 1 ])" \
        '/map:1: warning: no effect: /map:1 says the same [no-effect]'
    tested 'mailmap_shortlog alone' "$(echo 'jd <jd@y>' | "${alone[@]}" "${emulator[@]}" /mailmap_shortlog -e /map)" \
        $'     1\tJane Doe <jane@x>'
    tested 'a missing file' "$("${alone[@]}" "${emulator[@]}" /mailmap_verify /none 2>&1 || true)" \
        'mailmap_verify: /none: No such file or directory'
    tested 'what they leave' "$(find "$work/root" -type f | wc -l)" "$((4 + ${#emulator[@]}))"
else
    echo "skipped: no folder can be made the root here: $(head -n 1 "$work/said")"
fi
echo "static: $passed passed, $failed failed"
[ "$failed" = 0 ]
