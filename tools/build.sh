#!/usr/bin/env bash
# Proves and builds what is linked or run from outside: static libraries to target/staticlib/libNAME.a, programs to target/bin/NAME.
# usage: tools/build.sh NAME..        of the crates exports, cell, plan, all_orders
set -euo pipefail
cd "$(dirname "$0")/.."
mkdir -p target/staticlib target/bin
for name in "$@"; do
    log=$PWD/target/build-$name.log
    if grep -q "^$name staticlib:" crates.txt; then
        (cd "crates/$name" && rt lib) >"$log" 2>&1 || { cat "$log"; exit 1; }
        cp "crates/$name/out/lib$name.a" target/staticlib/
    else
        # a run leaves the program in out/
        (cd "crates/$name" && rt run </dev/null) >"$log" 2>&1 || { cat "$log"; exit 1; }
        cp "crates/$name/out/$name" target/bin/
    fi
done
