#!/usr/bin/env bash
# Builds the examples against the static library and runs them; fails where an answer differs.
set -euo pipefail
cd "$(dirname "$0")/../.."
tools/build.sh cell
mkdir -p target/c
for name in fifty check; do
    gcc -std=c11 -Wall -Wextra -Werror -O2 -Iinclude "examples/c/$name.c" target/staticlib/libcell.a -o "target/c/$name"
done
target/c/fifty

# order files checked against paths; that the samples are those that make.py makes is looked at by examples/test.sh
count=0
for due in examples/files/*.result; do
    sample=${due%.result}
    found=$(target/c/check "$sample.path" "$sample.order" "$(cat "$sample.highest")")
    if [ "$found" != "$(cat "$due")" ]; then
        echo "$sample: $found, not $(cat "$due")"
        exit 1
    fi
    count=$((count + 1))
done
echo "$count order files checked against their paths"
