#!/usr/bin/env bash
# Runs the built program where each of its statuses is due. Prints only what is wrong.
set -euo pipefail
here="$(cd "$(dirname "${BASH_SOURCE[0]}")" && pwd)"
program="$here/../crates/far_trace/out/far_trace"
"$here/far_trace" </dev/null
work="$(mktemp -d)"
trap 'rm -rf "$work"' EXIT
wrong=0

expect() { # what, the status, standard output and standard error that are wanted, after a run into $work
    local what="$1" status="$2" out="$3" err="$4"
    if [[ "$got" != "$status" || "$(cat "$work/out")" != "$out" || "$(cat "$work/err")" != "$err" ]]; then
        echo "statuses: $what: status $got, stdout '$(head -c 200 "$work/out")', stderr '$(head -c 200 "$work/err")'" >&2
        wrong=1
    fi
}

given() { # the text, and arguments
    local text="$1"
    shift
    got=0
    printf "$text" | "$program" "$@" >"$work/out" 2>"$work/err" || got=$?
}

usage='usage: far_trace [split]'
given ''
expect 'empty input' 0 '' ''
given '# a comment alone\n'
expect 'a comment alone' 0 '' ''
given 'heap 4 1\n' -- split
expect 'another argument before split' 2 '' "$usage"
given 'heap 4 1\n' split split
expect 'split twice' 2 '' "$usage"
given 'heap 4 1\n' split ''
expect 'an empty argument after split' 2 '' "$usage"
given 'heap 4 1\n' Split
expect 'another argument' 2 '' "$usage"
given 'heap 4 1\n' ''
expect 'an empty argument' 2 '' "$usage"
given 'heap 4 1\n' $'\xff'
expect 'an argument that is no text' 2 '' "$usage"
given 'heap 4 1\n' split $'\xff'
expect 'one that is no text after split' 2 '' "$usage"
given 'heap 4 1\n' splits
expect 'an argument that goes on' 2 '' "$usage"
got=0
printf 'heap 4 1\n' | (exec -a $'\xff' "$program") >"$work/out" 2>"$work/err" || got=$?
expect 'a name of the program that is no text' 0 ok ''
given 'heap 1 1\nx'
expect 'a line before a shape' 2 'refused 16 2' ''
given 'heap 4 1\nselect script 1\n'
expect 'a script without logs' 2 'refused 16 2' ''
given 'heap 4 1\nnew 0 8 1\nnew 0 4088 1\nopen 0\nround oldest 1 18446744073709551615\nwait\nabort\nabort\n'
expect 'commands of rounds, refused and not' 0 "$(printf 'ok\npointer 0\npointer 1\nok\nround limit waiting\nrefused 18 0 0\nok\nrefused 12')" ''

given '' split
expect 'empty input, split' 0 'book' ''
given '# a comment alone\n' split
expect 'a comment alone, split' 0 'book' ''
given 'heap 4 2\nnew 0 8 1\nnew 1 8 1\nopen 0\nwrite 0 0 0 0a\nread 0 0 0 1\nopen 1\nread 1 256 0 1\n' split
expect 'two mutators, split' 0 "$(printf 'mutator 0\npointer 0\nok\nok\ndata 0a\nmutator 1\npointer 256\nok\ndata 00\nbook')" ''
given 'heap 4 1\nclose 0\nlog 4\nround oldest 1 9' split
expect 'refused lines, split' 0 "$(printf 'mutator 0\nrefused 5\nbook\nrefused 8\nround none')" ''
given 'heap 4 1\nnew 0 8 1\nround oldest 1 9\nepoch 0\n' split
expect 'a line of no thread' 2 'refused 16 4' ''
given 'heap 1 1\nopen 1\n' split
expect 'a mutator that the heap has not, before a shape' 2 'refused 16 2' ''

for way in '' split; do # without and with the argument
    # shellcheck disable=SC2086
    {
        given 'heap 1 1\n' $way
        expect "a shape, $way" 2 'refused 15' ''
        given 'heap 4 1\nopen\n' $way
        expect "a line, $way" 2 'refused 16 2' ''
        got=0
        head -c 1048577 /dev/zero | tr '\0' '\n' | "$program" $way >"$work/out" 2>"$work/err" || got=$?
        expect "a text that is too long, $way" 2 'refused 16 0' ''
        got=0
        "$program" $way </ >"$work/out" 2>"$work/err" || got=$?
        expect "a folder as standard input, $way" 1 '' 'read fault'
        got=0
        "$program" $way <&- >"$work/out" 2>"$work/err" || got=$?
        expect "no standard input, $way" 1 '' 'read fault'
        : >"$work/out"
        got=0
        printf 'heap 4 1\n' | "$program" $way >/dev/full 2>"$work/err" || got=$?
        expect "a full device, $way" 1 '' 'write fault'
        got=0
        printf 'heap 4 1\n' | "$program" $way >&- 2>"$work/err" || got=$?
        expect "no standard output, $way" 1 '' 'write fault'
        exec {gone}> >(:)
        wait "$!"
        got=0
        printf 'heap 4 1\n' | "$program" $way >&"$gone" 2>"$work/err" || got=$?
        exec {gone}>&-
        expect "a reader that is gone, $way" 1 '' 'write fault'
    }
done
exit "$wrong"
