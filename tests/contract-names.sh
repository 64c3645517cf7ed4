#!/bin/sh
# A run (crate demands, specs/Runs) speaks of the bench's functions by name. What no theorem can say of them is tested here: every public function of `Bench`
# is a case of a run, taken by what its own contract ensures (`Learnt`; `fresh` is what a run begins with), and none has a `requires`, nor has a function of the
# analyser of which the theorems speak.
# With an argument, that folder is tested in place of this repository.
set -eu
root=${1:-$(cd "$(dirname "$0")/.." && pwd)}
runs=$root/crates/demands/specs/Runs.antt
plan=$root/crates/demands/specs/LoadPlanReads.antt

fail() {
    echo "contract-names: $1" >&2
    exit 1
}

# The public functions of a bench: those of `Bench`, in whatever file, and all others at the root, of other types too; one a line
public() {
    find "$root/crates/bench/src" -name '*.rt' -exec awk '
        FNR == 1 { inside = 0; at_root = FILENAME ~ /\/lib\.rt$/ }
        /^impl / { inside = at_root || $2 == "Bench" }
        /^}/ { inside = 0 }
        /^ *pub (extern "C" )?fn / && (inside || at_root && /^pub/) { sub(/^.*fn /, ""); sub(/[^A-Za-z0-9_].*/, ""); print }' {} + | sort
}

# The contracts that a part of Runs takes, one a line: taken FIRST-WORDS, the part ending with an empty line
taken() {
    awk -v first="$1" 'index($0, first) == 1 { inside = 1 } /^$/ { inside = 0 } inside' "$runs" | grep -o '[a-z0-9_]*_contract\.Learnt' | sed 's/_contract.*//'
}

# The text from a public function's name to its body, which begins with a brace alone on its line: head_of CRATE FUNCTION
head_of() {
    awk -v name="$2" '
        index($0, "pub fn " name "(") { inside = 1 }
        /^ *[{]$/ { inside = 0 }
        inside' $(find "$root/crates/$1/src" -name '*.rt')
}

functions=$(public)
for module in $(sed -n 's/^pub mod \(.*\);$/\1/p' "$root/crates/bench/src/lib.rt"); do
    ! grep -qwE 'Bench|Answered' "$root/crates/bench/src/$module.rt" || fail "the public module $module of crate bench speaks of a bench; its functions would be no case of a run"
done
! grep -n '^pub use' "$root/crates/bench/src/lib.rt" || fail "crate bench makes public what stands in a module; a function of that would be no case of a run"
found=$({ taken 'pub data Ran '; taken 'pub record Run '; } | sort)
[ "$found" = "$functions" ] || fail "the functions whose contracts make a run are
$found
and should be
$functions"
for function in $functions; do
    case $function in
    load_plan) # read in a file of its own
        grep -qxF "use Rattle.demands.specs.LoadPlanReads as ${function}_contract" "$runs" && grep -qF "use Rattle.bench.specs.contracts.Bench.$function.{clauses," "$plan" &&
            grep -qF 'ensures_of w = (clauses ' "$plan" && grep -qxF '  Learnt = AllOf reads.tells' "$plan"
        ;;
    *) grep -qxF "use Rattle.bench.proofs.Bench.$function.Reads as ${function}_contract" "$runs" ;;
    esac || fail "${function}_contract in $runs is not the contract of $function"
    [ "$function" != fresh ] || {
        echo "contract-names: a run begins with what fresh gives by its own contract"
        continue
    }
    awk -v name="$function" '
        index($0, "  by_") == 1 { inside = index($0, "  by_" name " :") == 1 }
        inside && index($0, " " name "_contract.Learnt ") { found = 1 }
        END { exit !found }' "$runs" || fail "the case by_$function in $runs does not take what $function ensures"
    echo "contract-names: $function is a case of a run by its own contract"
done

# asks_nothing CRATE FUNCTION
asks_nothing() {
    [ -n "$(head_of "$1" "$2")" ] || fail "crate $1 has no public function $2"
    ! head_of "$1" "$2" | grep -q requires || fail "$2 of crate $1 has a 'requires', and should refuse instead"
}
for function in $functions; do
    asks_nothing bench "$function"
done
asks_nothing read read
asks_nothing harden harden
asks_nothing read_sync read_sync
echo "contract-names: none of them, nor read, harden and read_sync, has a requires"
