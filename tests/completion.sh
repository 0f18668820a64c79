#!/usr/bin/env bash
# Tests what bash completes for the programs, and that they take it. The argument is mailmap_verify, which bash asks for
# its kinds.
set -euo pipefail
verify="$(realpath "$1")"
PATH="$(dirname "$verify"):$PATH"
cd "$(dirname "$0")/.."
. completions/mailmap_verify
. completions/mailmap_shortlog
passed=0

# completes WORDS WANTED: what is offered for the last of the words; readline takes `=` for a word of its own
completes() {
    local words
    IFS=' ' read -r -a words <<< "${1//=/ = }"
    [[ $1 != *[\ =] ]] || words+=('')
    COMP_WORDS=("${words[@]}") COMP_CWORD=$((${#words[@]} - 1)) COMPREPLY=()
    "_${words[0]}" "${words[0]}" "${words[COMP_CWORD]}" "${words[COMP_CWORD - 1]}" || true
    if [ "${COMPREPLY[*]-}" != "$2" ]; then
        printf 'for %s bash offers:\n%s\nand not:\n%s\n' "$1" "${COMPREPLY[*]-}" "$2" >&2
        exit 1
    fi
    passed=$((passed + 1))
}

completes 'mailmap_verify --s' '--suggest --severity --stdin-name'
completes 'mailmap_verify --severity ' 'error warning note'
completes 'mailmap_verify --severity=w' warning
completes 'mailmap_verify --severity=' 'error warning note'
completes 'mailmap_verify -f j' json
completes 'mailmap_verify -f g' 'gcc github'
completes 'mailmap_verify --prune --i' --in-place
completes 'mailmap_verify -e same-' 'same-email same-name'
completes 'mailmap_verify -e s' 'same-email shared-email same-name similar-name'
completes 'mailmap_verify -e no-email,un' 'no-email,unclosed-email no-email,unclosed-second-email no-email,unneeded'
completes 'mailmap_verify --contacts ' ''
completes 'mailmap_verify ' ''
completes 'mailmap_shortlog --v' --version
completes 'mailmap_shortlog ' ''

# the program takes each of these, over an empty mailmap
takes() {
    local word
    for word in $2; do
        if ! "$verify" "$1$word" - < /dev/null; then
            echo "mailmap_verify doesn't take $1$word" >&2
            exit 1
        fi
        passed=$((passed + 1))
    done
}
_mailmap_verify mailmap_verify '' -e || true
takes --exclude= "${COMPREPLY[*]}"
takes --severity= 'error warning note'
takes --format= 'gcc json github'
echo "completion: $passed passed, 0 failed"
