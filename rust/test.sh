#!/usr/bin/env bash
# Builds the static libraries and runs the comparisons against them. ROUNDS=10 runs ten times as many cases.
# With the word `valgrind` it runs a smaller number under valgrind instead, with the word `all` both.
set -euo pipefail
cd "$(dirname "$0")/.."
# the libraries, and the program that tests/programs.rs runs
tools/build.sh exports cell all_orders
cd rust
what=${1:-tests}
if [ "$what" != valgrind ]; then
    cargo test --release --offline --quiet --tests -- --nocapture
fi
if [ "$what" != tests ]; then
    cargo build --release --offline --quiet --bin sample
    valgrind --quiet --error-exitcode=1 target/release/sample
fi
