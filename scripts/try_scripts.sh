#!/usr/bin/env bash
# Tries the scripts that a user calls: far_trace and try, over a made-up tree whose rt is made up too, and draw, over the built
# program; whether each wrong edit can still be made; and whether docs/round.svg shows what the program replies (of the pages:
# pages.py). Prints only what is wrong.
set -euo pipefail
here="$(cd "$(dirname "${BASH_SOURCE[0]}")" && pwd)"
program="${1:-$here/../crates/far_trace/out/far_trace}"
docs="$here/../docs"
work="$(mktemp -d)"
trap 'rm -rf "$work"' EXIT
wrong=0

fail() {
    echo "try_scripts: $1" >&2
    wrong=1
}

tree="$work/a tree"
launcher="$tree/scripts/far_trace"
mkdir -p "$tree/scripts" "$work/bin" "$work/linked"
for crate in far_word far_evac far_text far_trace far_laws; do
    mkdir -p "$tree/crates/$crate/src"
    echo "// $crate" >"$tree/crates/$crate/src/lib.rt"
done
cp "$here/far_trace" "$launcher"
cp "$here/try" "$tree/scripts/try"
ln -s "$launcher" "$work/linked/trace"
printf '%s\n' 'far_word:' 'far_evac may_wait=2: far_word  thiserror' 'far_text: hex' 'far_laws: far_trace' 'far_trace: far_evac far_text' >"$tree/crates.txt"
cat >"$work/bin/rt" <<'END'
#!/usr/bin/env bash
# Answers as rt does, proves nothing, and makes a program that prints its input where its arguments are WORDS; where REFUSE is set, nothing is proved.
name="$(basename "$PWD")"
echo "$1 $name" >>"$CALLS"
if [[ -n "${REFUSE:-}" ]]; then
    echo "fn $name::f: not proved"
    exit 1
fi
if [[ "$1" == try ]]; then
    [[ "$2" == -- && "${*:3}" == "${WORDS:-}" ]] && exec cat
    exit 1
fi
[[ -d out ]] || printf '%s\n' "rt: chose --jobs 2 for $name" 'so far: 3 of 9 functions checked' 'fn f: proved'
mkdir -p out
if [[ "$1" == run && ! -e out/far_trace ]]; then
    printf '#!/usr/bin/env bash\n[[ "$*" == "${WORDS:-}" ]] && exec cat\n' >out/far_trace
    chmod +x out/far_trace
fi
END
chmod +x "$work/bin/rt"
export PATH="$work/bin:$PATH" CALLS="$work/calls"

launch() { # what, the status and the commands of rt that are wanted, and a call whose output is its input
    local what="$1" status="$2" calls="$3" got=0
    shift 3
    : >"$CALLS"
    (cd / && echo hello | "$@" >"$work/out" 2>"$work/err") || got=$?
    [[ "$got" == "$status" ]] || fail "$what: status $got"
    [[ "$(sort "$CALLS" | paste -s -d ,)" == "$calls" ]] || fail "$what: rt was called so: $(paste -s -d , "$CALLS")"
    [[ "$(cat "$work/out")" == "$( ((status)) || echo hello)" ]] || fail "$what: printed '$(cat "$work/out")'"
}

tells() { # what is wanted on standard error
    grep -qxF "$1" "$work/err" || fail "standard error lacks '$1': $(cat "$work/err")"
}

silent() {
    [[ ! -s "$work/err" ]] || fail "$1: standard error has $(cat "$work/err")"
}

launch 'an argument, not built' 2 '' "$launcher" --help
tells 'usage: far_trace [split]'
launch 'an empty argument, not built' 2 '' "$launcher" ''
tells 'usage: far_trace [split]'
launch 'split twice, not built' 2 '' "$launcher" split split
tells 'usage: far_trace [split]'
launch 'an empty argument after split, not built' 2 '' "$launcher" split ''
tells 'usage: far_trace [split]'
REFUSE=1 launch 'a refused proof' 1 'lib far_evac,lib far_text' "$launcher"
tells 'fn far_evac::f: not proved'
rm "$(sed -n 's/.*; its log is //p' "$work/err")"
launch 'a run without a proof' 0 'try far_trace' "$tree/scripts/try"
tells 'try: far_trace is being compiled without a proof, for about a minute'
WORDS='split' launch 'one with split' 0 'try far_trace' "$tree/scripts/try" split
launch 'one that ends badly' 1 'try far_trace' "$tree/scripts/try" split
launch 'another argument of try' 2 '' "$tree/scripts/try" splitx
tells 'usage: try [split] <TRACE'
: >"$CALLS"
[[ "$("$tree/scripts/try" --help)" == 'usage: try [split] <TRACE' && ! -s "$CALLS" ]] || fail 'try --help'
launch 'a first call, through a link' 0 'lib far_evac,lib far_text,run far_trace' "$work/linked/trace"
tells 'far_trace: far_evac (2 of 4): is being proved and built'
tells 'far_trace: far_text (3 of 4): so far: 3 of 9 functions checked'
tells 'far_trace: far_trace (4 of 4): is being proved and built'
launch 'a second call' 0 '' "$launcher"
silent 'a second call'
WORDS='split' launch 'a call with split' 0 '' "$launcher" split
silent 'a call with split'
touch "$tree/crates/far_text/src/lib.rt"
launch 'a call after a touch' 0 'run far_trace' "$launcher"
launch 'a call after that' 0 '' "$launcher"
touch -d tomorrow "$tree/crates/far_word/src/lib.rt"
launch 'a call with a source of tomorrow' 0 'run far_trace' "$launcher"
launch 'a call after that' 0 '' "$work/linked/trace"
silent 'a call after that'

cp "$here/edits_stand.py" "$here/edits.py" "$tree/scripts/"
mkdir "$tree/crates/far_word/planted"
edit() { # the text of the one edit of the made-up tree that is to be replaced
    printf 'edit: nothing\nfile: src/lib.rt\nold: %s\nnew: // nothing\n' "$1" >"$tree/crates/far_word/planted/lib.edits"
}
edit '// far_word'
"$tree/scripts/edits_stand.py" || fail 'edits_stand: an edit that can be made'
edit '// far_text'
! "$tree/scripts/edits_stand.py" >"$work/out" || fail 'edits_stand: an edit of a text that is nowhere'
"$here/edits_stand.py" || fail 'an edit can no longer be made'

"$program" --help 2>"$work/err" || true
tells 'usage: far_trace [split]'

draw() { # what, the status that is wanted, and the text that is drawn
    local got=0
    printf '%b' "$3" >"$work/trace"
    "$here/draw" "$work/trace" "$program" >"$work/out" 2>"$work/err" || got=$?
    [[ "$got" == "$2" ]] || fail "draw, $1: status $got: $(cat "$work/err")"
    ((got)) || python3 -c 'import sys, xml.dom.minidom; xml.dom.minidom.parse(sys.argv[1])' "$work/out" || fail "draw, $1: no XML"
}

[[ "$("$here/draw" --help)" == 'usage: draw TRACE [PROGRAM]'* ]] || fail 'draw --help'
draw 'refusals and inquiries' 0 '# words & <more>\n\nheap 2 1\nnew 0 8 1\nlogs\nopen 9\nwhere 0 0\ndrop 0 0\nlogs\nnew 0 9 1\nread 0 0 0 1'
[[ "$(grep -c 'class="refused"' "$work/out")" == 2 ]] || fail 'draw: not each refusal is shown'
draw 'a heap alone' 0 'heap 64 8\n'
draw 'a line off the grammar' 2 'heap 2 1\n\nopen\n'
tells 'refused 16 3'
draw 'no commands' 1 '# words\n'
"$here/draw" "$docs/round.trace" "$program" >"$work/out"
cmp -s "$work/out" "$docs/round.svg" || fail 'docs/round.svg is no longer what draw draws'
exit "$wrong"
