#!/usr/bin/env bash
# cases.sh: remakes the stored cases and compares them with the stored files.
# cases.sh SEED: makes new ones from this seed.
#
# The findings, suggestions and counts come from the model in tests/model. The cases of tests/original come from the
# Rust original, for which tests/original/oracle.sh builds a program. ORACLE_OPTIONS are options for cargo, such as
# where a copy of the original is.
set -euo pipefail
cd "$(dirname "$0")"
status=0
# shellcheck disable=SC2086 # the options are words
oracle="$(original/oracle.sh ${ORACLE_OPTIONS:-})" || status=$?
if [ "$status" != 0 ] && [ "$status" != 77 ]; then
    exit "$status"
fi
if [ $# = 1 ]; then
    model/cases.py "$1"
    if [ "$status" = 0 ]; then
        original/cases.py "$oracle" "$1"
    else
        echo 'skipped: the cases of tests/original, since there is no program over the original here'
    fi
else
    model/cases.py --check
    [ "$status" = 0 ] || echo 'skipped: the answers of the original, since there is no program over it here'
    original/cases.py --check $oracle
fi
