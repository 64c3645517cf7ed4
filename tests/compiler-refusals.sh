#!/bin/sh
# Each edit under tests/refused/ must be refused by the compiler, with the error that its 'expect:' line names.
# (A must-fail edit of rt has to reach the prover, so it cannot show a type error.)
set -eu
root=$(cd "$(dirname "$0")/.." && pwd)
copy=$(mktemp -d)
trap 'rm -rf "$copy"' EXIT
(cd "$root" && tar -cf - --exclude='crates/*/out' crates.txt crates) | tar -xf - -C "$copy"

# The text after a 'NAME: ' line of an edit.
field() {
    sed -n "s/^$1: //p" "$2"
}

refusals=0
for edit in "$root"/tests/refused/*.edit; do
    name=$(basename "$edit" .edit)
    file=$(field file "$edit")
    crate=${file#crates/}
    crate=${crate%%/*}
    old=$(field old "$edit") new=$(field new "$edit") awk '
        { at = index($0, ENVIRON["old"]) }
        at { $0 = substr($0, 1, at - 1) ENVIRON["new"] substr($0, at + length(ENVIRON["old"])); made++ }
        { print }
        END { exit made != 1 }' "$root/$file" >"$copy/$file" || {
        echo "refused/$name: its 'old:' text is not in $file exactly once" >&2
        exit 1
    }
    # with no function's name: the crate is compiled, and none of its functions is proved
    if (cd "$copy/crates/$crate" && rt check --only '' >"$copy/said" 2>&1); then
        echo "refused/$name: NOT REFUSED" >&2
        exit 1
    fi
    expected=$(field expect "$edit")
    [ -n "$expected" ] && grep -F "error[mismatched-types]: $expected" "$copy/said" | grep -q "^${file#"crates/$crate/"}:" || {
        echo "refused/$name: refused, but not as a type error; the first lines said:" >&2
        grep -v '^rt: ' "$copy/said" | head -n 5 >&2
        exit 1
    }
    cp "$root/$file" "$copy/$file"
    refusals=$((refusals + 1))
    echo "refused/$name: refused by the compiler, as it must be"
done
[ "$refusals" -gt 0 ] || {
    echo "tests/refused has no edit" >&2
    exit 1
}
