#!/usr/bin/env bash
# Runs mailmap_check, mailmap_verify and mailmap_shortlog, which the three arguments name, when files, streams or memory
# fail. Also checks their usage and version, and runs of 200,000 lines and more, which must succeed. A failed run must
# end with status 2, with its message on standard error, and with nothing on standard output except the answers to the
# lines before the failure. No run may take long: one that repeats a failed write forever would not end.
#
# Only here memory runs out as it does for users: for an input, or what is made of it, that is larger than what the
# system grants. refusals.py refuses single requests, wherever they are.
set -euo pipefail
here="$(cd "$(dirname "$0")" && pwd)"
work="$(mktemp -d)"
trap 'rm -rf "$work"' EXIT
install -m 755 "$1" "$work/mailmap_check"
install -m 755 "$2" "$work/mailmap_verify"
install -m 755 "$3" "$work/mailmap_shortlog"
cd "$work"
printf 'Joe R. Developer <joe@example.com> <bugs@example.com>\n' > mailmap
printf 'bob <BUGS@example.com>\n' > contacts
printf 'plain\n' > faulty
printf 'bob <b@x>\nBob <b@x>\n' > alike
mkdir folder
head -c 40000000 /dev/zero > large
# a contact that fits into the limit below, but not together with its answer
{ head -c 7000000 /dev/zero; echo '<b@x>'; } > half
seq -f 'Joe <j%.0f@example.com>' 200000 > many
cat contacts large > long

runs=0
# fails LINE PROGRAM ARGUMENTS: runs the program, with contacts as standard input unless ARGUMENTS redirect it, and
# expects this failure. `answered` has the expected output.
fails() {
    local line="$1" program="$2" status=0
    bash -c "${limit:-}timeout 60 ./$program $3" < contacts > printed 2> said || status=$?
    printf %s "${answered:+$answered$'\n'}" > wanted
    printf '%s\n' "$program: $line" > line
    if [ "$status" != 2 ] || ! cmp -s printed wanted || ! cmp -s said line; then
        echo "failures: $program $3: status $status" >&2
        cat printed said >&2
        exit 1
    fi
    runs=$((runs + 1))
}

# mailmap_check names a file by its number, without a cause.
fails 'cannot read file 1' mailmap_check 'missing'
fails 'cannot read file 2' mailmap_check 'mailmap folder'
fails 'cannot read file 1' mailmap_check 'folder missing'
fails 'cannot read standard input' mailmap_check '< folder'
# After a file, an option is a file, too.
for option in -h --help --version --compact; do
    fails 'cannot read file 2' mailmap_check "mailmap $option"
done
# The input and the results have to fit into memory. Either can fail first.
limit='ulimit -v 20000; ' fails 'out of memory' mailmap_check 'mailmap large'
# mailmap_verify names the file and the cause.
fails 'missing: No such file or directory' mailmap_verify 'missing'
fails 'folder: Is a directory' mailmap_verify 'mailmap folder'
fails 'folder: Is a directory' mailmap_verify 'folder missing'
fails 'mailmap/x: Not a directory' mailmap_verify 'mailmap/x'
fails '.mailmap: No such file or directory' mailmap_verify ''
fails 'standard input: Is a directory' mailmap_verify '- < folder'
limit='ulimit -v 20000; ' fails 'out of memory' mailmap_verify 'mailmap large'
fails '--prune: No such file or directory' mailmap_verify '-- --prune'
fails 'cannot read file 1' mailmap_check '--compact missing'
fails 'cannot read standard input' mailmap_check 'mailmap < folder'
fails 'cannot read standard input' mailmap_check '--compact < folder'
fails 'cannot write output' mailmap_check 'mailmap > /dev/full'
fails 'cannot write output' mailmap_check '--compact mailmap > /dev/full'
fails 'cannot write output' mailmap_check 'mailmap >&-'
limit='ulimit -v 20000; '
fails 'out of memory' mailmap_check '< large'
fails 'out of memory' mailmap_check '--compact < large'
# With files, lines are answered as they come, so memory runs out only at the long line.
fails 'out of memory' mailmap_check 'mailmap < large'
answered='Joe R. Developer <joe@example.com>' fails 'out of memory' mailmap_check 'mailmap < long'
fails 'out of memory' mailmap_check 'mailmap < half'
fails 'out of memory' mailmap_verify '- < large'
fails 'out of memory' mailmap_verify '--prune - < large'
fails 'out of memory' mailmap_verify 'many'
fails 'out of memory' mailmap_verify '--prune many'
fails 'out of memory' mailmap_verify '--explain many'
# Contacts are explained as they come, so memory runs out only at the long line.
fails 'out of memory' mailmap_verify '--explain mailmap < large'
answered='bob <BUGS@example.com> is Joe R. Developer <joe@example.com> by mailmap:1' \
    fails 'out of memory' mailmap_verify '--explain mailmap < long'
fails 'out of memory' mailmap_verify '--contacts large mailmap'
fails 'out of memory' mailmap_verify '--contacts - mailmap < large'
fails 'out of memory' mailmap_verify '--contacts contacts many'
fails 'out of memory' mailmap_verify '--suggest large mailmap'
fails 'out of memory' mailmap_verify '--suggest - mailmap < large'
fails 'out of memory' mailmap_verify '--suggest contacts many'
fails 'out of memory' mailmap_verify '--suggest many mailmap'
limit=''
fails 'missing: No such file or directory' mailmap_verify '--explain mailmap missing'
fails '-: No such file or directory' mailmap_verify '--explain -'
fails 'standard input: Is a directory' mailmap_verify '--explain mailmap < folder'
fails 'missing: No such file or directory' mailmap_verify '--prune missing'
fails 'folder: Is a directory' mailmap_verify '--prune folder'
fails 'standard input: Is a directory' mailmap_verify '--prune - < folder'
fails 'missing: No such file or directory' mailmap_verify '--contacts missing mailmap'
fails 'missing: No such file or directory' mailmap_verify '--contacts contacts mailmap missing'
fails 'folder: Is a directory' mailmap_verify '--contacts folder mailmap'
fails 'standard input: Is a directory' mailmap_verify '--contacts - mailmap < folder'
fails 'standard input: Is a directory' mailmap_verify '--contacts contacts - < folder'
fails '-: No such file or directory' mailmap_verify '--contacts - -'
fails 'missing: No such file or directory' mailmap_verify '--suggest missing mailmap'
fails 'missing: No such file or directory' mailmap_verify '--suggest contacts mailmap missing'
fails 'folder: Is a directory' mailmap_verify '--suggest folder'
fails 'mailmap/x: Not a directory' mailmap_verify '--suggest missing mailmap/x'
fails 'standard input: Is a directory' mailmap_verify '--suggest - mailmap < folder'
fails '-: No such file or directory' mailmap_verify '--suggest contacts -'
fails '--prune takes one FILE at most' mailmap_verify '--prune mailmap mailmap'
fails 'folder: Is a directory' mailmap_verify '--prune --in-place mailmap folder'
fails '-: No such file or directory' mailmap_verify '--prune --in-place -'
fails '.mailmap: No such file or directory' mailmap_verify '--prune --in-place'
fails '--prune takes one FILE at most' mailmap_verify '--prune missing missing mailmap'
fails 'cannot write output' mailmap_verify 'faulty > /dev/full'
fails 'cannot write output' mailmap_verify 'faulty >&-'
fails 'cannot write output' mailmap_verify '--prune mailmap > /dev/full'
fails 'cannot write output' mailmap_verify '--explain mailmap > /dev/full'
fails 'cannot write output' mailmap_verify '--contacts faulty mailmap > /dev/full'
fails 'cannot write output' mailmap_verify '--format json faulty > /dev/full'
fails 'cannot write output' mailmap_verify '-f github faulty > /dev/full'
fails 'cannot write output' mailmap_verify '--suggest alike mailmap > /dev/full'
fails 'cannot write output' mailmap_verify '--suggest alike >&-'
fails 'cannot write output' mailmap_verify '--help > /dev/full'
fails 'cannot write output' mailmap_verify '--version > /dev/full'
fails 'cannot write output' mailmap_check '--help > /dev/full'
# mailmap_shortlog names files and causes, too, and prints nothing before it has read all contacts.
fails 'missing: No such file or directory' mailmap_shortlog 'missing'
fails '-: No such file or directory' mailmap_shortlog '-'
fails '-n: No such file or directory' mailmap_shortlog '-- -n'
fails 'folder: Is a directory' mailmap_shortlog '-ne mailmap folder'
fails 'standard input: Is a directory' mailmap_shortlog 'mailmap < folder'
limit='ulimit -v 20000; '
fails 'out of memory' mailmap_shortlog 'mailmap large'
fails 'out of memory' mailmap_shortlog 'many'
fails 'out of memory' mailmap_shortlog 'mailmap < large'
fails 'out of memory' mailmap_shortlog 'mailmap < many'
limit=''
fails 'cannot write output' mailmap_shortlog 'mailmap > /dev/full'
fails 'cannot write output' mailmap_shortlog 'mailmap >&-'
fails 'cannot write output' mailmap_shortlog '--help > /dev/full'
fails 'cannot write output' mailmap_shortlog '--version > /dev/full'
usage="usage: mailmap_shortlog [-n] [-e] [-s] [--] [MAILMAP..]
git's options select what is piped: git log OPTIONS --format='%an <%ae>' | mailmap_shortlog .mailmap"
fails "unknown option: --foo"$'\n'"$usage" mailmap_shortlog '--foo mailmap'
fails "unknown option: -nx"$'\n'"$usage" mailmap_shortlog '-n -nx'
fails "unknown option: -\\x1b"$'\n'"$usage" mailmap_shortlog "$'-\\x1b'"

# If standard error fails as well, only the exit status reports the failure.
for program in mailmap_check mailmap_verify mailmap_shortlog; do
    for closed in '2> /dev/full' '2>&-'; do
        status=0
        bash -c "timeout 60 ./$program missing < contacts $closed" > printed || status=$?
        if [ "$status" != 2 ] || [ -s printed ]; then
            echo "failures: $program missing $closed: status $status" >&2
            exit 1
        fi
        runs=$((runs + 1))
    done
done

# prints TEXT STATUS PROGRAM ARGUMENTS: expects this text and this status, and nothing on standard error
prints() {
    local text="$1" want="$2" program="$3" status=0
    bash -c "timeout 60 ./$program $4" > printed 2> said || status=$?
    printf %s "${text:+$text$'\n'}" > wanted
    if [ "$status" != "$want" ] || [ -s said ] || ! cmp -s printed wanted; then
        echo "failures: $program $4: status $status" >&2
        head -c 4000 printed said >&2
        exit 1
    fi
    runs=$((runs + 1))
}

for program in mailmap_check mailmap_verify mailmap_shortlog; do
    prints "$program $(cat "$here/../VERSION")" 0 $program '--version'
    ./$program --help | diff "$here/help/$program.txt" -
    ./$program -h | diff "$here/help/$program.txt" -
done
printf 'Jane <jane@x> \x1b[31m\x7f\xff\n' > control
cp -- control -x
found=$'1: warning: ignored text: \\x1b[31m\\x7f\xff (an old name needs an email after it) [ignored-text]'
prints "control:$found" 1 mailmap_verify 'control'
prints "-x:$found" 1 mailmap_verify '-- -x'
prints "<stdin>:$found" 1 mailmap_verify '- < control'
prints "$(cat control)" 0 mailmap_verify '--prune control'
# A space at the start or the end is part of a file's name.
printf 'Jane <jane@x> <bugs@example.com>\n' > ' a '
printf 'plain\n' > a
prints 'Jane <jane@x>' 0 mailmap_check "' a ' < contacts"
prints '' 0 mailmap_verify "' a '"
prints $'     1\tJane' 0 mailmap_shortlog "' a ' < contacts"
# 200,000 lines fit into memory.
prints "$(cat many)" 0 mailmap_check 'many < <(sed s/Joe/x/ many)'
prints "$(sed 's/^/ /' many | LC_ALL=C sort)" 0 mailmap_check '--compact many'
prints "$(sed 's/^/ /' many | LC_ALL=C sort)" 0 mailmap_check '--compact < many'
prints '' 0 mailmap_verify 'many'
prints "$(cat many)" 0 mailmap_verify '--prune many'
prints "$(sed 's/^.*$/& is & by many:/' many | cat -n | sed 's/^ *\([0-9]*\)\t\(.*\)/\2\1/; s/^Joe/x/')" 0 \
    mailmap_verify '--explain many < <(sed s/Joe/x/ many)'
prints '' 0 mailmap_verify '--suggest contacts mailmap'
prints "$(sed 's/^/# 1 /' many; sed '1d; s/^Joe/#?Joe <j1@example.com>/' many; echo; echo -)" 0 \
    mailmap_verify '--suggest many many; echo -'
prints "$(sed 's/^Joe/     1\tJoe/' many | LC_ALL=C sort)" 0 mailmap_shortlog '-e many < many'
# Many lines for few keys, after some in another mailmap.
round=$'First <A@x>\n<n1@y> JANE <a@X>\n<n2@y> Jane <a@x>\nLast <a@x>'
printf '%s\n' 'Ann <a@X>' '<n3@y> jane <a@x>' '<n4@y> <b@x>' > before
{ yes "$round" || true; } | head -n 200000 > more
prints $' Last <A@x>\n <n2@y> JANE <A@x>' 0 mailmap_check '--compact more'
prints $' Last <a@X>\n <n2@y> jane <a@X>\n <n4@y> <b@x>' 0 mailmap_check '--compact before more'
echo "failures: $runs passed, 0 failed"
