#!/bin/sh
# One name, one meaning: fails where two definitions under crates/*/specs have the same name, or a definition has the name of a public struct or
# enum of a library (a crate that neither reads nor prints), or two of those have the same. Fields, constructors and what stands inside a definition may
# share a name.
set -eu
cd "$(dirname "$0")/.."
LC_ALL=C
export LC_ALL

# crate text reads and prints, and so does what stands on it; crates.txt lists a crate after those that it uses
libraries=$(awk '
    /^[a-z]/ {
        sub(/( staticlib)?:/, "")
        reads[$1] = $1 == "text"
        for (i = 2; i <= NF; i++) if (reads[$i]) reads[$1] = 1
        if (!reads[$1]) print "crates/" $1 "/src"
    }' crates.txt)

defined() {
    find crates/*/specs -name '*.antt' -exec awk '
        /^pub mod / { next }
        /^((abbrev|unfoldable) )?pub / {
            sub(/^((abbrev|unfoldable) )?pub ((record|data) )?/, "")
            print $1, FILENAME
        }' {} +
    find $libraries -name '*.rt' -exec awk '
        /^pub (struct|enum) / {
            name = $3
            sub(/[^A-Za-z0-9].*/, "", name)
            print name, FILENAME
        }' {} +
}

all=$(defined)
twice=$(echo "$all" | sort | awk '$1 == name { print name ": " file " and " $2 } { name = $1; file = $2 }')
if [ -n "$twice" ]; then
    echo "spec-names: a name with two meanings; one of them wants another name:" >&2
    echo "$twice" >&2
    exit 1
fi
echo "spec-names: $(echo "$all" | wc -l | tr -d ' ') definitions and structs, each with a name of its own"
