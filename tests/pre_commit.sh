#!/usr/bin/env bash
# Runs the hooks for pre-commit, if it is here: the one of this repository, with the programs in PATH that the arguments
# name, and the one of docs/VERIFY.md, for which pip installs the wheel.
set -euo pipefail
top="$(cd "$(dirname "$0")/.." && pwd)"
if [ -z "$(command -v pre-commit)" ]; then
    printf 'skipped: %s\n%s\n' 'there is no pre-commit here, so its hooks are not run' 'pre-commit: 0 passed, 0 failed'
    exit 0
fi
work="$(mktemp -d)"
trap 'rm -rf "$work"' EXIT
. "$top/tests/ship_functions.sh"
export PRE_COMMIT_HOME="$work/home" GIT_CONFIG_GLOBAL=/dev/null GIT_CONFIG_SYSTEM=/dev/null
export GIT_AUTHOR_NAME=x GIT_AUTHOR_EMAIL=x@x GIT_COMMITTER_NAME=x GIT_COMMITTER_EMAIL=x@x

# repository FOLDER: commits what is in a folder
repository() {
    git -C "$1" init -q
    git -C "$1" add -A
    git -C "$1" commit -q -m x
}
mkdir "$work/hooks" "$work/mapped"
cp "$top/.pre-commit-hooks.yaml" "$work/hooks"
repository "$work/hooks"
printf 'plain\n' > "$work/mapped/.mailmap"
# the last two blocks of the page that configure pre-commit, and the one that is meant by the argument
configured() {
    awk -v number="$1" '/^```yaml/ { block = "" } { block = block $0 "\n" }
        /^```$/ && block ~ /^```yaml\nrepos:/ { found++; if (found == number) printf "%s", block; block = "" }' \
        "$top/docs/VERIFY.md" | sed '/^```/d'
}
# reports NAME: expects that the hook ends with a finding, and without one once the mailmap has none
reports() {
    local said status=0
    said="$(cd "$work/mapped" && pre-commit run --all-files 2>&1)" || status=$?
    if [ "$status" != 1 ] || [[ $said != *'.mailmap:1: error: no email in brackets [no-email]'* ]]; then
        printf '%s ends with %s:\n%s\n' "$1" "$status" "$said"
        exit 1
    fi
    printf 'Jane <jane@x>\n' > "$work/mapped/.mailmap"
    git -C "$work/mapped" commit -q -am y
    (cd "$work/mapped" && pre-commit run --all-files > "$work/said" 2>&1) || { cat "$work/said"; exit 1; }
    printf 'plain\n' > "$work/mapped/.mailmap"
    git -C "$work/mapped" commit -q -am z
}
repository "$work/mapped"
for program in "$@"; do
    install -D -m 755 "$program" "$work/bin/$(basename "$program")"
done

configured 2 | sed "s|URL|$work/hooks|; s|COMMIT|$(git -C "$work/hooks" rev-parse HEAD)|" \
    > "$work/mapped/.pre-commit-config.yaml"
git -C "$work/mapped" add -A
PATH="$work/bin:$PATH" reports 'the hook of this repository'

# pip takes everything from this folder, and what builds a package from its environment
built wheel DIST="$work/wheels"
configured 1 > "$work/mapped/.pre-commit-config.yaml"
git -C "$work/mapped" add -A
export PIP_NO_INDEX=1 PIP_FIND_LINKS="$work/wheels" PIP_NO_BUILD_ISOLATION=0 PIP_DISABLE_PIP_VERSION_CHECK=1
reports 'the hook of the page'
echo 'pre-commit: 2 passed, 0 failed'
