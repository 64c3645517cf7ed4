#!/bin/sh
# Each function that a host's library exports carries the contract of the call behind it. This test holds the texts to each other, export by export: the
# definition that the call's own contract equates its answer with, arguments and all, is the one that every clause of the export speaks of, in the form due
# for its kind of answer; the parameters of call, export and header's declaration are the same, in one order. Every export is compared and has no `requires`.
# With an argument, that folder is tested in place of this repository.
set -eu
root=${1:-$(cd "$(dirname "$0")/.." && pwd)}

fail() {
    echo "export-contracts: $1" >&2
    exit 1
}

# What a function ensures, a line a clause: ensured FILE NAME
ensured() {
    awk -v name="$2" '
        index($0, "fn " name "(") { inside = 1 }
        /^ *[{]/ { inside = 0 }
        inside && $1 == "ensures" { sub(/^ +/, ""); print }' "$root/$1"
}

# The definition with its arguments that a call's first clause equates its answer with, the bench by the export's name for it, a cell parameter or code
# group by its number.
definition() {
    ensured "$1" "$2" | sed -n '1 {
        s/.* ≡ \(outcome\|plan_outcome\|draw_outcome\) (\(.*\)) }$/\2/; t named
        s/.* ≡ \(.*\) }$/\1/
        : named
        s/ self/ bench/g
        s/set_cell_call bench cell/set_cell_call bench (record { 0 = cell })/
        s/\b\([a-z]*\)\.0\b/\1/g
        p
    }'
}

# The parameters of a function in the order of its signature, a word each, but for the bench: parameters FILE NAME
parameters() {
    awk -v name="$2" '
        index($0, "fn " name "(") { inside = 1 }
        inside { text = text $0 }
        inside && /[)] ->/ { exit }
        END { sub(/^[^(]*[(]/, "", text); sub(/[)] ->.*/, "", text); print text }' "$root/$1" | tr ',' '\n' |
        sed -n '/self$/d; s/^ *\([a-z0-9]*\): .*/\1/p' | grep -vx bench | paste -s -d ' ' -
}

# The parameters that a header declares for an export, by their names in Rattle: a buffer counts as one. declared HEADER NAME
declared() {
    text=$(awk -v name="$2" '
        /^[a-z]/ && index($0, " " name "(") { inside = 1 }
        inside { printf "%s", $0 }
        inside && /;$/ { exit }' "$root/$1")
    [ -n "$text" ] || fail "$1 does not declare $2"
    printf '%s\n' "$text" | sed 's/^[^(]*(//; s/);$//' | tr ',' '\n' |
        sed '/_length$/d; s/.*[ *]//; s/^void$//; s/sync_case/case/; s/scratch_/sum/; s/out_/out/' | grep -vx bench | paste -s -d ' ' -
}

# An export may have another name for a parameter than its call.
renamed() {
    case $1 in
    tdd_code_group) sed 's/\bp$/cell/' ;;
    tdd_secondary_chip) sed 's/\bn$/chip/' ;;
    tdd_burst_start) sed 's/\bg$/group/' ;;
    *) cat ;;
    esac
}

# same WHAT FOUND DUE
same() {
    [ "$2" = "$3" ] || fail "$1:
$2
and should be
$3"
}

compared=0
# in_order FILE CALL CRATE NAME: call, export and header have the same parameters in one order
in_order() {
    due=$(parameters "$1" "$2" | renamed "$4")
    same "the parameters of $4 in crates/$3/src/lib.rt are" "$(parameters "crates/$3/src/lib.rt" "$4")" "$due"
    # C gives the bits of a load their length by this name
    [ "$4" != tdd_bench_load_bits ] || due="$due count"
    found=$(declared "include/$3.h" "$4")
    same "the parameters of $4 in include/$3.h are" "$found" "$due"
    compared=$((compared + 1))
}

# export_of FILE CALL CRATE NAME CLAUSES: the call, its export, and the clauses due, with CALL for the definition
export_of() {
    in_order "$1" "$2" "$3" "$4"
    call="($(definition "$1" "$2" | renamed "$4"))"
    due=$(printf '%s\n' "$5" | awk -v call="$call" '{ while ((at = index($0, "CALL")) > 0) $0 = substr($0, 1, at - 1) call substr($0, at + 4); print }')
    same "what $4 ensures in crates/$3/src/lib.rt is" "$(ensured "crates/$3/src/lib.rt" "$4")" "$due"
    echo "export-contracts: $4 carries the contract of $2"
}

clause() {
    echo "ensures $1 { $2 }"
}

refusal=$(clause refusal 'result.refusal ≡ refusal_of CALL')
bench=crates/bench/src/lib.rt
for name in set_cell open close set_gain load_bits set_sync clear_sync start; do
    export_of $bench $name tdd_bench tdd_bench_$name "$refusal
$(clause bench 'result.bench ≡ left_by CALL bench')"
done
export_of $bench load_records tdd_bench tdd_bench_load_records "$(clause refusal 'result.refusal ≡ plan_refusal_of CALL')
$(clause place 'result.place ≡ place_of CALL')
$(clause bench 'result.bench ≡ plan_left_by CALL bench')"
export_of $bench draw tdd_bench tdd_bench_draw "$refusal
$(clause count 'result.count ≡ after CALL 0 (λ d. d.count)')
$(clause bench 'result.bench ≡ after CALL bench (λ d. d.bench)')
$(clause real 're.new ≡ after CALL re.old (λ d. written d.chips.re re.old)')
$(clause imaginary 'im.new ≡ after CALL im.old (λ d. written d.chips.im im.old)')"
in_order $bench fresh tdd_bench tdd_bench_fresh
same "what tdd_bench_fresh ensures in crates/tdd_bench/src/lib.rt is" "$(ensured crates/tdd_bench/src/lib.rt tdd_bench_fresh)" "$(ensured $bench fresh)"

# The analyser answers a number, or a struct of numbers.
export_of crates/read/src/lib.rt read tdd_bench tdd_read "$(clause refusal 'result ≡ refusal_of CALL')
$(clause real 'outre.new ≡ after CALL outre.old (λ y. written y.re outre.old)')
$(clause imaginary 'outim.new ≡ after CALL outim.old (λ y. written y.im outim.old)')"
export_of crates/harden/src/lib.rt harden tdd_bench tdd_harden "$(clause refusal 'result ≡ refusal_of CALL')
$(clause bytes 'bits.new ≡ after CALL bits.old (λ b. written b bits.old)')"
export_of crates/read_sync/src/lib.rt read_sync tdd_bench tdd_read_sync "$refusal
$(clause group 'result.group ≡ after CALL 0 (λ c. c.group.0)')
$(clause frame 'result.frame ≡ after CALL 0 (λ c. c.frame)')
$(clause half 'result.half ≡ after CALL 0 (λ c. c.half)')"
export_of crates/find/src/lib.rt find tdd_bench tdd_find "$refusal
$(clause start 'result.start ≡ after CALL 0 (λ p. p.start)')
$(clause size 'result.size ≡ after CALL (pos 0) (λ p. p.size)')
$(clause real 'ScratchLeft CALL sumre.old sumre.new')
$(clause imaginary 'ScratchLeft CALL sumim.old sumim.new')"

codes=crates/codes/src/lib.rt
export_of $codes element tdd_codes tdd_element "$refusal
$(clause element 'result.element ≡ after CALL (pos 0) (λ e. e)')"
export_of $codes related tdd_codes tdd_related "$refusal
$(clause related 'result.related ≡ after CALL 0 (λ t. cond t 1 0)')"
export_of $codes code_group tdd_codes tdd_code_group "$refusal
$(clause group 'result.group ≡ after CALL 0 (λ g. g)')"
chip="$refusal
$(clause chip 'result.chip ≡ after CALL 𝟎 (λ x. x)')"
export_of $codes scrambling_chip tdd_codes tdd_scrambling_chip "$chip"
export_of $codes primary_chip tdd_codes tdd_primary_chip "$chip"
export_of $codes secondary_chip tdd_codes tdd_secondary_chip "$chip"
export_of $codes allocation tdd_codes tdd_allocation "$refusal
$(clause codes 'result.codes ≡ after CALL silent (λ s. s)')"
export_of $codes burst_start tdd_codes tdd_burst_start "$refusal
$(clause start 'result.start ≡ after CALL 0 (λ n. n)')"

exports=$(cat "$root"/crates/tdd_bench/src/*.rt "$root"/crates/tdd_codes/src/*.rt | grep -c '^pub extern "C" fn ')
[ "$exports" = "$compared" ] || fail "there are $exports exports, and $compared were compared"
! grep -n 'requires' "$root"/crates/tdd_bench/src/*.rt "$root"/crates/tdd_codes/src/*.rt >&2 || fail "an export asks something of its caller (above), and should refuse instead"
