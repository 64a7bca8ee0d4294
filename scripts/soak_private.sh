#!/usr/bin/env bash
# Soaks private heaps, each beside a map of std's: over memory, over a file, over a device that fails and one that lies, and where growth is refused again and
# again; then refuses each growth of a short run in turn. Each run must end with status 0 and `wrong 0`; a short one may be refused memory before it
# begins, with status 1 and nothing written, and both must come. Prints what is wrong alone, or, where `tell` is said, each run too.
# usage: soak_private.sh PROGRAM CALLS [SEED [tell]]     PROGRAM: a built soak_far_private
set -euo pipefail
here="$(cd "$(dirname "${BASH_SOURCE[0]}")" && pwd)"
program="$(realpath "${1:?soak_private.sh PROGRAM CALLS [SEED [tell]]}")"
calls="${2:?how many calls}"
seed="${3:-1}"
tells="${4:-}"
work="$(mktemp -d)"
trap 'rm -rf "$work"' EXIT
cc -O2 -shared -fPIC -o "$work/fail_malloc.so" "$here/fail_malloc.c" -ldl
cd "$work" # the file is made here
wrong=0

run() { # words of the program, and how a run begins; what came of it is left in out, err, status
    local status=0
    env COUNT_ALLOC="$work/count" LD_PRELOAD="$work/fail_malloc.so" "${begun[@]}" "$program" "$@" >"$work/out" 2>"$work/err" || status=$?
    echo "$status" >"$work/status"
}

is_whole() { # of so many calls
    [[ "$(cat "$work/status")" == 0 && "$(cat "$work/out")" == "calls $1 wrong 0" && ! -s "$work/err" ]]
}

miss() {
    echo "soak_private: $*: status $(cat "$work/status"), $(cat "$work/out" "$work/err" | head -c 400)" >&2
    wrong=1
}

soak() { # a device, and how many logs
    local since=$SECONDS
    run "$calls" "$seed" "$1" "$2"
    is_whole "$calls" || miss "$calls $seed $1 $2"
    [[ "$tells" != tell ]] || echo "$(cat "$work/out") seed $seed $1, $2 logs, $(cat "$work/count") growths, $((SECONDS - since)) s"
    seed=$((seed + 1))
}

begun=()
for logs in 3 32; do soak memory "$logs"; done
for device in file fails lies; do soak "$device" 16; done
# past those that the model and the heap take when they are made
run 0 1 memory 16
made="$(cat "$work/count")"
begun=("FAIL_ALLOC=$((made + 1))" FAIL_EVERY=3)
soak scarce 16

begun=()
run 0 1 memory 1 # a heap of one log is refused, once the model is made
model="$(cat "$work/count")"
run 2000 "$seed" scarce 8
is_whole 2000 || miss "no growth is refused"
asked="$(cat "$work/count")"
refused=0
for ((nth = model + 1; nth <= asked; nth++)); do
    begun=("FAIL_ALLOC=$nth")
    run 2000 "$seed" scarce 8
    if [[ "$(cat "$work/status")" == 1 && ! -s "$work/out" && "$(cat "$work/err")" == memory ]]; then
        refused=$((refused + 1))
    elif ! is_whole 2000; then
        miss "growth $nth of $asked"
    fi
done
((0 < refused && refused < asked - model)) || miss "a heap's growths, $refused of $((asked - model)), refuse it"
[[ "$tells" != tell ]] || echo "each of $((asked - model)) growths refused: $refused ended with memory"
exit "$wrong"
