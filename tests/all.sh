#!/bin/sh
# Every check of the repository: the texts first, then rt ci, then the program, the libraries and the compiler's refusals, which take what rt check keeps.
# The last line is rt ci's verdict, held back until all the rest has passed; where anything fails, the status is not 0 and that line does not come.
set -eu
cd "$(dirname "$0")/.."
tests/contract-names.sh
tests/export-contracts.sh
tests/spec-names.sh

room=$(mktemp -d)
trap 'rm -rf "$room"' EXIT
# What rt ci says is shown as it comes, but for its last line; through a fifo, since behind a pipe its status would be lost.
mkfifo "$room/said"
tee "$room/all" <"$room/said" | sed -u '$d' &
status=0
rt ci >"$room/said" 2>&1 || status=$?
wait
tail -n 1 "$room/all" >"$room/verdict"
[ $status = 0 ] && grep -qx '[0-9][0-9]* passed, 0 failed' "$room/verdict" || {
    grep -vx '[0-9][0-9]* passed, 0 failed' "$room/verdict" >&2 || : # a good line is not shown where the status is bad
    echo "test: rt ci failed, with status $status; what it said is above" >&2
    exit 1
}
# A wrong program that cannot be tried shows nothing, and rt ci passes all the same: its line then counts it as bad.
grep -q '^rt: ok' "$room/all" && ! grep -q '^rt: ok.*, [0-9][0-9]* bad' "$room/all" || {
    echo "test: rt ci could not try every wrong program under must-fail/; its line 'rt: ok', above, counts them" >&2
    exit 1
}

tests/tdd.sh
tests/host.sh
tests/compiler-refusals.sh
cat "$room/verdict"
