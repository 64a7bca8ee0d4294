#!/usr/bin/env bash
# Measures far_trace on the texts of generate.py: instructions a line, the part of parsing, where they go, system calls, and
# time beside `cat`. usage: run.sh [PROGRAM]; without it the program is built first, if its sources are newer.
set -euo pipefail
here="$(cd "$(dirname "${BASH_SOURCE[0]}")" && pwd)"
program="${1:-}"
if [[ -z "$program" ]]; then
    "$here/../scripts/far_trace" </dev/null
    program="$here/../crates/far_trace/out/far_trace"
fi
[[ -x "$program" && ! -d "$program" ]] || { echo "run.sh: $program is no program" >&2 && exit 2; }
work="$(mktemp -d)"
trap 'rm -rf "$work"' EXIT
python3 "$here/generate.py" "$work"
runs=51

instructions() { # the text: all instructions of a run, loading included
    { valgrind --tool=callgrind --callgrind-out-file="$work/callgrind" "$program" <"$1" 2>&1 >/dev/null || true; } |
        sed -n 's/.*Collected : //p'
}

parsed() { # the same text with a bad line at its end: it is parsed, and nothing is run
    { head -c -4 "$1" && printf '\n!\n'; } >"$work/parsed"
    { "$program" <"$work/parsed" || true; } | grep -q '^refused 16' || echo "the text is not refused" >&2
    instructions "$work/parsed"
}

calls() { # a count of strace: the calls that read or write, and all
    awk '$NF == "read" || $NF == "write" { n += $4 } $NF ~ /^[a-z_0-9]+$/ && $4 ~ /^[0-9]+$/ && $NF != "total" { all += $4 }
        END { print n " read or write, " all " in all" }' "$work/calls"
}

took() { # a command and its input: the median wall time of some runs
    for ((i = 0; i < runs; i++)); do
        local begun="${EPOCHREALTIME/./}"
        "$1" <"$2" >"$work/out"
        echo "$((${EPOCHREALTIME/./} - begun))"
    done | sort -n | awk '{ all[NR] = $1 } END { printf "%.1f ms (least %.1f)", all[int((NR + 1) / 2)] / 1000, all[1] / 1000 }'
}

printf 'heap 4 1\n' >"$work/one"
start="$(instructions "$work/one")"
echo "heap 4 1 alone: $start instructions, loading included"
for text in "$work"/{access,churn,lines}.{half,whole}; do
    half_lines="${lines:-}" half_all="${all:-}"
    lines="$(wc -l <"$text")"
    all="$(instructions "$text")"
    parsed="$(parsed "$text")"
    echo "$(basename "$text"): $(wc -c <"$text") bytes, $lines lines, $all instructions: $((all / lines)) a line, of them" \
        "$(((parsed - start) / lines)) for reading and parsing"
    if [[ "$text" == *.whole ]]; then
        echo "  the lines that the half hasn't: $(((all - half_all) / (lines - half_lines))) a line"
    fi
done

text="$work/access.whole"
grep -v '^write' "$text" >"$work/read"
grep -v '^read' "$text" >"$work/write"
grep -v '^read\|^write' "$text" >"$work/neither"
neither="$(instructions "$work/neither")" neither_parsed="$(parsed "$work/neither")"
echo "access.whole without its reads and writes: $(wc -l <"$work/neither") lines, $neither instructions"
for kind in read write; do
    number="$(grep -c "^$kind" "$text")"
    echo "a $kind of 8 bytes: $((($(instructions "$work/$kind") - neither) / number)) instructions, of them" \
        "$((($(parsed "$work/$kind") - neither_parsed) / number)) for reading and parsing"
done

instructions "$text" >/dev/null
echo "where they go, access.whole:"
callgrind_annotate "$work/callgrind" 2>/dev/null |
    sed -n 's/ \[.*//; s/::<#.*>$//; s/^ *\([0-9,]* *( *[0-9.]*%)\)  *.*[:/]\([^/]*\)$/  \1 \2/p' | head -9

for text in "$work"/{access,lines}.whole; do
    echo "$(basename "$text"):"
    if command -v strace >/dev/null; then
        strace -f -c -o "$work/calls" "$program" <"$text" >"$work/out"
        echo "  system calls, from a file: $(calls)"
        cat "$text" | strace -f -c -o "$work/calls" "$program" | cat >"$work/out"
        echo "  system calls, from a pipe to a pipe: $(calls)"
    fi
    echo "  far_trace: $(took "$program" "$text")"
    echo "  cat:       $(took cat "$text")"
done
