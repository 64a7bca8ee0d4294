#!/usr/bin/env bash
# Refuses in turn each growth of a program that makes calls of a worker, over memory and over a file. Each run must end with status 0 and `wrong 0`: each call was
# done, the one that was refused when it was made once more, and no object was lost. Or the worker couldn't be made: `memory`, status 1, and nothing written. Both
# must come, and a call that is refused too. Prints only what is wrong.
# usage: refuse_pool.sh [PROGRAM [tell]]; without PROGRAM refuse_pool is built first.
set -euo pipefail
here="$(cd "$(dirname "${BASH_SOURCE[0]}")" && pwd)"
crate="$here/../crates/refuse_pool"
program="$(realpath "${1:-$crate/out/refuse_pool}")"
tells="${2:-}"
[[ -n "${1:-}" ]] || (cd "$crate" && rt run) >/dev/null
work="$(mktemp -d)"
trap 'rm -rf "$work"' EXIT
cc -O2 -shared -fPIC -o "$work/fail_malloc.so" "$here/fail_malloc.c" -ldl
wrong=0

run() { # over what, and which growth is refused; what came of it is left in a folder
    local at="$work/$1-$2" status=0
    mkdir "$at"
    (cd "$at" && FAIL_ALLOC="$2" COUNT_ALLOC="$at/count" LD_PRELOAD="$work/fail_malloc.so" "$program" "$1" >out 2>err) || status=$?
    echo "$status" >"$at/status"
}

ending() { # what a run came to: memory, done, or done though a call was refused; nothing, if it is none of these
    local at="$work/$1-$2"
    case "$(cat "$at/status") $(cat "$at/out") $(cat "$at/err")" in
    '1  memory') echo memory ;;
    '0 wrong 0 refused 0 ') echo 'done' ;;
    '0 wrong 0 refused 1 ') echo refused ;;
    esac
}

refuse() { # over what
    local asked nth came
    local -A met=()
    run "$1" 0
    asked="$(cat "$work/$1-0/count")"
    [[ "$(ending "$1" 0)" == 'done' ]] || asked=0
    for ((nth = 1; nth <= asked; nth++)); do
        run "$1" "$nth"
        came="$(ending "$1" "$nth")"
        if [[ -n "$came" ]]; then
            met[$came]=$((${met[$came]:-0} + 1))
        else
            echo "refuse_pool: $1, growth $nth of $asked: status $(cat "$work/$1-$nth/status"), $(cat "$work/$1-$nth"/{out,err} | head -c 400)" >&2
            wrong=1
        fi
        rm -r "${work:?}/$1-$nth"
    done
    if ((${#met[@]} != 3)); then
        echo "refuse_pool: $1, $asked growths: the endings ${!met[*]}" >&2
        wrong=1
    fi
    [[ "$tells" != tell ]] || echo "$1: each of $asked growths refused: memory ${met[memory]:-0}, a call refused ${met[refused]:-0}, none ${met[done]:-0}"
}

refuse memory
refuse file
exit "$wrong"
