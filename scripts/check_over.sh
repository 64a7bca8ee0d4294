#!/usr/bin/env bash
# Checks one crate over the libraries that another clone's gate has built, so that none below it is checked again. It
# says nothing where a contract below has changed since: the gate is the verdict.
#
#     scripts/check_over.sh CLONE CRATE KEPT [FLAGS]     CLONE has crates/*/out/rlib; KEPT is a folder for what is checked
#
# With `build` as the first flag it builds too: the file after -o.
set -euo pipefail
clone="${1:?scripts/check_over.sh CLONE CRATE KEPT [FLAGS]}"
crate="${2:?a crate}"
kept="${3:?a folder}"
shift 3
verb=check
[[ "${1:-}" == build ]] && verb=build && shift
root="$(cd "$(dirname "${BASH_SOURCE[0]}")/.." && pwd)"
kit=/opt/rattle

# the crates that one stands on, lowest first
below() {
    local it
    for it in $(sed -nE "s/^$1( staticlib)?: *//p" "$root/crates.txt"); do
        if [[ -d "$root/crates/$it" ]]; then
            below "$it"
            echo "$it"
        fi
    done
}

words=()
for it in std $(sed -nE "s/^$crate( staticlib)?: *//p" "$root/crates.txt"); do
    home="$kit/rlibs"
    [[ -d "$root/crates/$it" ]] && home="$clone/crates/$it/out/rlib"
    words+=(--extern "$it=$home/$it.rlib")
done
words+=(-L "dependency=$kit/rlibs")
for it in $(below "$crate" | awk '!seen[$0]++'); do
    words+=(-L "dependency=$clone/crates/$it/out/rlib")
done
grep -q "^$crate staticlib:" "$root/crates.txt" && words+=(--crate-type staticlib)
cd "$root/crates/$crate"
main=src/lib.rt
[[ -f src/main.rt ]] && main=src/main.rt
mkdir -p "$kept"
exec "$kit/bin/rattle" "$verb" --crate-name "$crate" "$main" "${words[@]}" --links "$crate=" \
    --antt-project "$kit/rattle/logic/antt-project.json" --logic-built "$kit/logic_built" --incremental "$kept" "$@"
