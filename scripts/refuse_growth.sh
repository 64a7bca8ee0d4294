#!/usr/bin/env bash
# Refuses each growth of a program in turn, under valgrind's memcheck, which must find neither a leak nor a wrong access. Each run must end as
# without a refusal (status 0, the whole output), or say that memory was refused, with status 1. Both endings must come. Prints only what is wrong.
# usage: refuse_growth.sh PROGRAM WORD..: bench_far_table `share 0 5 3` shares a core; bench_far_heap `slow 1` makes a heap, objects that go far in
# rounds, and views of them, `turns 1 3` one with copiers (bench/lay_out.sh). The gate does the same of refuse_far_heap (refuse_on_heap.sh).
set -euo pipefail
here="$(cd "$(dirname "${BASH_SOURCE[0]}")" && pwd)"
program="${1:?refuse_growth.sh PROGRAM WORD..}"
words=("${@:2}")
work="$(mktemp -d)"
trap 'rm -rf "$work"' EXIT
cc -O2 -shared -fPIC -o "$work/fail_malloc.so" "$here/fail_malloc.c" -ldl
wrong=0

run() { # the number of the growth that is refused; all that comes of it is left in a folder of that name
    local at="$work/$1" status=0
    mkdir "$at"
    valgrind -q --trace-children=yes --soname-synonyms=somalloc=nouserintercepts --log-file="$at/found" \
        --leak-check=full --show-leak-kinds=all --errors-for-leak-kinds=all --error-exitcode=9 \
        /usr/bin/env FAIL_IN="$(basename "$program")" FAIL_ALLOC="$1" COUNT_ALLOC="$at/count" LD_PRELOAD="$work/fail_malloc.so" "$program" "${words[@]}" \
        >"$at/out" 2>"$at/err" || status=$?
    echo "$status" >"$at/status"
}

run 0
status="$(cat "$work/0/status")"
whole="$(cat "$work/0/out")"
if ((status != 0)) || [[ -z "$whole" ]]; then
    echo "refuse_growth: no run without a refusal: status $status, $(cat "$work/0/err" "$work/0/found")" >&2
    exit 1
fi
asked="$(cat "$work/0/count")"
beside="$(nproc)" # so many runs go on at a time
for ((nth = 1; nth <= asked; nth++)); do
    while (($(jobs -rp | wc -l) >= beside)); do wait -n; done
    run "$nth" &
done
wait
refused=0
for ((nth = 1; nth <= asked; nth++)); do
    at="$work/$nth"
    status="$(cat "$at/status")"
    if [[ ! -s "$at/found" ]]; then
        if ((status == 0)) && [[ "$(cat "$at/out")" == "$whole" && ! -s "$at/err" ]]; then
            continue
        fi
        if ((status == 1)) && [[ ! -s "$at/out" && "$(cat "$at/err")" =~ ^(out of )?memory$ ]]; then
            refused=$((refused + 1))
            continue
        fi
    fi
    echo "refuse_growth: growth $nth of $asked: status $status, $(cat "$at/err"), valgrind: $(head -c 400 "$at/found")" >&2
    wrong=1
done
if ((refused < 10)); then
    echo "refuse_growth: of $asked growths only $refused ended with 'memory'" >&2
    wrong=1
fi
exit "$wrong"
