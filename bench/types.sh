#!/usr/bin/env bash
# Checks names, types and borrows of the programs that measure, over the libraries that the gate built, and proves nothing of them. Prints only what is wrong.
#
#     bench/types.sh     after `rt ci` in this clone
set -euo pipefail
(($# == 0)) || { echo "usage: bench/types.sh" >&2 && exit 2; }
root="$(cd "$(dirname "${BASH_SOURCE[0]}")/.." && pwd)"
work="$(mktemp -d)"
trap 'rm -rf "$work"' EXIT
"$root/bench/lay_out.sh" "$work/copy"
wrong=0
while IFS=: read -r program _; do
    if ! "$work/copy/scripts/check_over.sh" "$root" "$program" "$work/kept/$program" --only '' >"$work/said" 2>&1; then
        echo "bench/types: $program" >&2
        grep -E 'error' "$work/said" | head -20 >&2
        wrong=1
    fi
done <"$root/bench/programs/crates.in"
exit "$wrong"
