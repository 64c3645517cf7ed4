#!/bin/sh
# Counts the places that docs/DESIGN-PASS.md speaks of, in the sources of a commit, the checked out one unless another is named; with -v it lists them.
set -eu
cd "$(dirname "$0")/../.."
verbose=no
[ "${1:-}" != -v ] || { verbose=yes; shift; }
commit=${1:-HEAD}

# count POINT WHAT PATTERN [PATH]: the lines of src/ that an extended pattern finds
count() {
    found=$(git grep -nE "$3" "$commit" -- "${4:-crates/*/src/*.rt}" | sed 's/^[^:]*://' || true)
    printf '%s  %4d  %s\n' "$1" "$(printf '%s' "$found" | grep -c . || true)" "$2"
    [ $verbose = no ] || printf '%s\n' "$found" | sed 's/^/           /'
}

count 1 'enums of the shape of Option or Result: a case with a value, and one that says there is none or why' '^(pub )?enum ([A-Za-z]*Answer|Natural|Component|Argument|Value|Chip|Record|Refilled|Ending|Fault) '
count 1 'numbers of refusals, returned or answered, 0 for none' '::Refused\([0-9]+\)|return ([1-9]|1[0-9]);$' 'crates/[bcfhr]*/src/*.rt'
count 1 'tests of a number that is 0 where all is well, and FAILED' '(number|refusal) (==|!=) 0|== FAILED'
count 1 'flags or faults with a value beside them' '^ +(pub )?(fault: Fault|past: bool|alone: bool|on: u8|running: u8|refusal: u32|number: u32|error: Option<Error>),$'
count 1 'constants that number kinds' '^(pub )?const [A-Z_0-9]+: (usize|u32) = [0-9]+;' 'crates/*/src/*.rt'
count 2 'structs of a re and an im array, or of a re and an im' '^    (pub )?re: (\[|i|Readings)'
count 2 'an answer beside the new bench' '^pub struct (Answered|Planned|Drawn) '
count 2 're and im taken apart to be stored' 'let [a-z]+ = [a-z]+\.re;'
count 2 'functions that say one operation' '^(pub )?fn (smaller|past|plus|less|sum|difference|product|wide|minus|plus_signed|plus_gain|kept|four|any_of_five|sum_of_products|not_negative|not_negative_wide|one_if|entry|natural|number|component|signed)\('
count 3 'while and loop' '^ *(while|loop)\b'
count 3 'for over a range of indices' '^ *for [a-z0-9_]+ in [^{]*\.\.'
count 4 'casts' ' as (u|i)(8|16|32|64|size)'
count 4 'wrapping sums as functions' 'num::wrapping_'
count 4 'equality, order, conversion and printing by hand' '^ *(pub )?fn (same|smaller|past|not_negative|not_negative_wide|word|signed|wide|minus|one_if|digit|byte|index|part|number|natural|component|with_unit)\('
count 5 'a size of entries in a contract' 'requires.*(Bound|Both|Within) [0-9]+'
count 5 'equal lengths in a contract' 'requires.*length (re.now|im.old) ≡ length'
count 5 'a factor or a code in a contract' 'requires.*(is_spreading_factor|k < q|k2 < q2)'
count 5 'the levels of the gains in a contract' 'requires.*levels ≡ levels_of'
count 6 'n beside the answers, from and to or rest beside a line' '(out: &mut Answers, n: usize|^    n: usize,|from: usize|rest: usize|to: usize|at: usize)'
count 6 'the five numbers of a line by their places' '(\[u32; 5\]|\bx\[[0-4]\])'
count 6 're and im in one array' 'PLANE|im_part'
count 7 'a last arm for the row or case that is left' '^ +_ => [^{]*,?$'
printf '8  %4d  %s\n' "$(git ls-tree -r --name-only "$commit" crates | grep -c '/Answers\.antt$')" 'files of answers'
printf '8  %4d  %s\n' "$(git grep -hE '' "$commit" -- 'crates/*/proofs/*.antt' | wc -l)" 'lines of proofs'
