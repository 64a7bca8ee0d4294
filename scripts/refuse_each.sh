#!/usr/bin/env bash
# Refuses each growth of the built program in turn, on five texts: the stored trace; a plain round; one where a hot object goes far; one
# of which the device fails, with much output; and one whose rounds send many objects away. Each run must end with the whole output; or, where a
# growth was refused while an object left, with the output that lacking.py tells, in which that command is `refused 1`, with its counts, and the
# run goes on, an audit and all logs at its end; both with status 0. Or it ends before its first command, with `memory`, status 1, and nothing written but
# `refused 1`. All these endings must come, and so many outputs in which a command is refused as the call says. Prints only what is wrong.
set -euo pipefail
here="$(cd "$(dirname "${BASH_SOURCE[0]}")" && pwd)"
crate="$here/../crates/far_trace"
program="${1:-$crate/out/far_trace}"
work="$(mktemp -d)"
trap 'rm -rf "$work"' EXIT
[[ -n "${1:-}" ]] || "$here/far_trace" </dev/null
cc -O2 -shared -fPIC -o "$work/fail_malloc.so" "$here/fail_malloc.c" -ldl
echo 'refused 1' >"$work/refused"
wrong=0

plain() { # a round that moves one object and sends one far, which is read
    printf 'heap 4 1\nnew 0 8 1\nnew 0 8 1\nopen 0\nwrite 0 0 0 0102030405060708\nclose 0\nnew 0 4088 1\nround oldest 1 9\n'
    printf 'where 0 0\nwhere 0 1\nround oldest 1 9\nopen 0\nread 0 0 0 8\nread 0 1 0 8\nwhere 0 1\n'
}

hot() { # a hot object goes far, since its owner took the last log
    printf 'heap 4 1\nnew 0 4088 1\nnew 0 4088 1\nnew 0 4088 1\nopen 0\nview 0 0\nclose 0\nselect oldest 2\nmark 9\nwait\nopen 0\n'
    printf 'view 0 1\nevacuate 9\nwhere 0 0\nevacuate 9\nwhere 0 0\n'
}

much() { # more output than waits before it is written
    for ((i = 0; i < 40; i++)); do echo logs; done
}

failing() { # a device that fails once, and much output before and after each command that takes memory
    printf 'heap 64 1\ndevice fail 3\nnew 0 8 1\nnew 0 4088 1\nnew 0 4088 1\n'
    much
    printf 'select oldest 1\nmark 9\nwait\n'
    much
    printf 'evacuate 9\nevacuate 9\n'
    much
    printf 'round oldest 1 9\nevacuate 9\nopen 0\n'
    much
    printf 'view 0 0\nview 0 0\n'
}

many() { # rounds that send many objects away, each after another one that may have been stopped, and views that bring some back; one of these isn't written, and goes again
    printf 'heap 9 2\n'
    for ((i = 0; i < 60; i++)); do printf 'new %d 184 1\n' $((i % 2)); done
    printf 'new 0 4088 1\nround oldest 9 30\nevacuate 3\nevacuate 99\nopen 0\n'
    for ((i = 0; i < 9; i++)); do printf 'write 0 %d 0 %02x\n' "$i" "$i"; done
    printf 'close 0\nnew 1 4088 1\nnew 0 4088 1\nround leastlive 9 30\nabort\nround oldest 9 30\nopen 0\nread 0 3 0 2\nread 0 20 0 2\nclose 0\n'
    for ((i = 0; i < 3; i++)); do printf 'new 1 4088 1\nround oldest 9 30\nround oldest 9 30\n'; done
    printf 'where 0 20\nopen 0\nread 0 20 0 2\n'
}

run() { # the text, and the number of the growth that is refused
    FAIL_ALLOC="$2" COUNT_ALLOC="$work/count" LD_PRELOAD="$work/fail_malloc.so" "$program" <"$1" >"$work/out" 2>"$work/err"
}

told() { # the number of the output that lacking.py tells and the run wrote, if there is one
    local at
    for at in "$work/told"/*; do
        if cmp -s "$at" "$work/out"; then
            basename "$at"
            return
        fi
    done
}

refuse() { # the text, and in how many outputs, each another one, a command must be refused memory
    local text="$1" outputs="$2" asked status found silent=0 answered=0
    local -A lacking=()
    rm -rf "$work/told"
    mkdir "$work/told"
    printf 'audit\nlogs\n' >>"$text"
    "$here/lacking.py" "$text" "$work/told"
    run "$text" 0 || true
    asked="$(cat "$work/count")"
    for ((nth = 0; nth <= asked; nth++)); do
        status=0
        run "$text" "$nth" || status=$?
        if ((status == 0)) && [[ ! -s "$work/err" ]]; then
            found="$(told)"
            if [[ "$found" == 0 ]] || ((nth > 0)) && [[ -n "$found" ]]; then
                [[ "$found" == 0 ]] || lacking[$found]=1
                continue
            fi
        elif ((status == 1)) && [[ "$(cat "$work/err")" == memory ]]; then
            if [[ ! -s "$work/out" ]]; then
                silent=$((silent + 1))
                continue
            fi
            if cmp -s "$work/out" "$work/refused"; then
                answered=$((answered + 1))
                continue
            fi
        fi
        echo "refuse_each: $(basename "$text"), growth $nth of $asked: status $status, stderr $(cat "$work/err"), stdout:" >&2
        head -c 400 "$work/out" >&2
        wrong=1
    done
    if ((silent == 0 || answered == 0 || ${#lacking[@]} != outputs)); then
        echo "refuse_each: $(basename "$text"), $asked growths: $silent ended without output, $answered with 'refused 1', and a command was refused in the outputs ${!lacking[*]}" >&2
        wrong=1
    fi
}

cat "$crate/stdin" >"$work/stored"
for text in plain hot failing many; do "$text" >"$work/$text"; done
refuse "$work/stored" 0
refuse "$work/plain" 2
refuse "$work/hot" 1
refuse "$work/failing" 2
refuse "$work/many" 65
exit "$wrong"
