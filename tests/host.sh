#!/bin/sh
# The libraries as hosts use them: builds them into lib/, then runs the tests of host/, which hold every export to an independent implementation,
# compile and run C programs by the headers under include/, and hold the words of refusals to docs/TDD.md.
set -eu
cd "$(dirname "$0")/.."
for tool in cargo cc; do
    command -v $tool >/dev/null || {
        echo "host: $tool is not on the path: the tests of the libraries need cargo (Rust 1.85 or newer) and a C compiler" >&2
        exit 1
    }
done
make --no-print-directory libraries
began=$(date +%s)
(cd host && cargo test --quiet -- --show-output) # with the seeds, and what the random lists came upon
echo "host: the libraries agree with the independent implementation and their headers, the words of refusals with docs/TDD.md; $(($(date +%s) - began)) s"
