#!/usr/bin/env bash
# Runs rt with these arguments. Also fails if a mutant can't be tried, or is refused for another reason than a contract,
# both of which rt only notes. Such a mutant tests nothing.
set -euo pipefail
said="$(mktemp)"
trap 'rm -f "$said"' EXIT
# rt gives a check a second job where it can, which takes a fifth more processor time. RT_JOBS is how many checks run side
# by side, one job each; rt then doesn't look at memory, of which one takes up to 4 GB.
gigabytes=$(($(sed -n 's/^MemAvailable: *\([0-9]*\) kB$/\1/p' /proc/meminfo) / 1000000))
if [ $((gigabytes / 4)) -ge "$(nproc)" ]; then
    RT_JOBS="${RT_JOBS:-$(nproc)}"
    export RT_JOBS
fi
rt "$@" 2>&1 | tee "$said"
if grep -E 'BAD EDIT|\(only (by a limit|because a proof file)' "$said" >&2; then
    echo 'these mutants test nothing: correct them' >&2
    exit 1
fi
