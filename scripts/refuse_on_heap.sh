#!/usr/bin/env bash
# Refuses in turn each growth of a program that makes a plain round on a heap, call by call: without copiers, with one, and if the heap is refused for its
# shape, of one log or of no copiers. Each run must end with status 0 and the whole output, or with that where one call is `refused 1` and the later calls go on
# from there: the round, as lacking.py tells, or one of three audits. Or no heap is made: the run ends with the reason, status 1, and nothing written. All these
# endings must come. If valgrind is there, its memcheck must find neither a leak nor a wrong access: what is handed to a call that is refused is dropped.
# Prints only what is wrong. usage: refuse_on_heap.sh [PROGRAM]; without PROGRAM refuse_far_heap is built first.
set -euo pipefail
here="$(cd "$(dirname "${BASH_SOURCE[0]}")" && pwd)"
crate="$here/../crates/refuse_far_heap"
program="${1:-$crate/out/refuse_far_heap}"
work="$(mktemp -d)"
trap 'rm -rf "$work"' EXIT
[[ -n "${1:-}" ]] || (cd "$crate" && rt run) >/dev/null
cc -O2 -shared -fPIC -o "$work/fail_malloc.so" "$here/fail_malloc.c" -ldl
watch=()
if command -v valgrind >/dev/null; then
    watch=(valgrind -q --soname-synonyms=somalloc=nouserintercepts --leak-check=full --show-leak-kinds=all
        --errors-for-leak-kinds=all --error-exitcode=9)
fi
wrong=0
declare -A words_of=([alone]=4 [copier]='4 1' [few_logs]=1 [no_copiers]='4 0') # logs, and copiers
shape='logs, mutators or first epoch out of range'

row() { # the calls as a trace
    printf 'heap 4 1\nnew 0 8 1\nnew 0 8 1\nopen 0\nwrite 0 0 0 0102030405060708\nclose 0\nnew 0 4088 1\nround oldest 1 9\n'
    printf 'where 0 0\nwhere 0 1\nlog 0\nlog 1\nlog 2\naudit\nopen 0\nread 0 0 0 8\nread 0 1 0 8\nwhere 0 1\nclose 0\nevacuate 16\nlogs\naudit\naudit\n'
}

copied() { # of the whole output: the same where the round waits for the copy of an object, by what the round is answered, and what it did after the copy
    sed "s/^round .*/$1\nok\nevacuated moved 1 far $2 dropped 0 freed 1 done/" "$work/alone/0"
}

tell() { # writes the outputs in which a call is refused, or none is, of the program without copiers and with one
    mkdir "$work/alone" "$work/copier"
    row >"$work/row"
    "$here/lacking.py" "$work/row" "$work/alone"
    copied 'round limit evacuating' 0 >"$work/copier/0"
    copied 'refused 1 moved 0 far 0 dropped 0 freed 0' 1 >"$work/copier/1"
    for kind in alone copier; do
        for nth in 1 2 3; do # the audit that is refused
            awk -v nth="$nth" '/^audit / && ++met == nth { $0 = "refused 1" } { print }' "$work/$kind/0" >"$work/$kind/audit$nth"
        done
    done
}

run() { # the kind of heap, and the number of the growth that is refused; all that comes of it is left in a folder of these names
    local at="$work/$1-$2" status=0 words over=()
    read -ra words <<<"${words_of[$1]}"
    mkdir "$at"
    ((${#watch[@]} == 0)) || over=("${watch[@]}" --log-file="$at/found")
    FAIL_IN="$(basename "$program")" FAIL_ALLOC="$2" COUNT_ALLOC="$at/count" LD_PRELOAD="$work/fail_malloc.so" \
        "${over[@]}" "$program" "${words[@]}" >"$at/out" 2>"$at/err" || status=$?
    echo "$status" >"$at/status"
}

ending() { # what a run came to: `memory` or `shape`, for which no heap was made, or the name of an output; nothing, if it is none of these
    local at="$work/$1-$2" status
    status="$(cat "$at/status")"
    [[ ! -s "$at/found" ]] || return 0
    if ((status == 1)) && [[ ! -s "$at/out" ]]; then
        case "$(cat "$at/err")" in
        memory | 'out of memory') echo memory ;;
        "$shape") echo shape ;;
        esac
    elif ((status == 0)) && [[ ! -s "$at/err" ]]; then
        for told in "$work/$1"/*; do
            ! cmp -s "$told" "$at/out" || basename "$told"
        done
    fi
}

judge() { # of a kind of heap: the ending without a refusal, how many endings there are, and how often one must be `memory`; all must come
    local kind="$1" whole="$2" asked came
    local -A met=()
    asked="$(cat "$work/$kind-0/count")"
    for ((nth = 0; nth <= asked; nth++)); do
        came="$(ending "$kind" "$nth")"
        if [[ -n "$came" ]] && ((nth > 0)) || [[ "$came" == "$whole" ]]; then
            met[$came]=$((${met[$came]:-0} + 1))
            continue
        fi
        echo "refuse_on_heap: $kind, growth $nth of $asked: status $(cat "$work/$kind-$nth/status")," \
            "$(cat "$work/$kind-$nth"/{err,found,out} 2>/dev/null | head -c 900)" >&2
        wrong=1
    done
    if ((${#met[@]} != $3 || ${met[memory]:-0} < $4)); then
        echo "refuse_on_heap: $kind, $asked growths: the endings ${!met[*]}, ${met[memory]:-0} of them 'memory'" >&2
        wrong=1
    fi
}

refuse() { # of a kind of heap: each growth
    local asked
    run "$1" 0
    asked="$(cat "$work/$1-0/count")"
    for ((nth = 1; nth <= asked; nth++)); do
        while (($(jobs -rp | wc -l) >= beside)); do wait -n; done
        run "$1" "$nth" &
    done
    wait
}

tell
beside="$(nproc)" # so many runs go on at a time
for kind in alone copier few_logs no_copiers; do refuse "$kind"; done
judge alone 0 6 30
judge copier 0 6 30
judge few_logs shape 2 5
judge no_copiers shape 2 25
exit "$wrong"
