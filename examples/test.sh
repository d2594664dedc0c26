#!/usr/bin/env bash
# Runs the programs plan and all_orders on every sample path of theirs and compares what they write with what is due. The samples are those that
# make.py makes. The programs are built first; others may be named as the two arguments. show.py is tried on every sample of plan and on every
# cut of them.
set -euo pipefail
if [ $# -gt 0 ]; then plan=$(realpath "$1") all_orders=$(realpath "$2"); else plan= all_orders=; fi
cd "$(dirname "$0")/.."
if [ -z "$plan" ]; then
    tools/build.sh plan all_orders
    plan=$PWD/target/bin/plan all_orders=$PWD/target/bin/all_orders
fi

work=$(mktemp -d)
trap 'rm -rf "$work"' EXIT
cp examples/make.py "$work"
python3 "$work/make.py"
diff -r "$work/paths" examples/paths
diff -r "$work/files" examples/files
diff -r "$work/orders" examples/orders

count=0
failed=0
# compares what a program wrote with what is due
same() {
    count=$((count + 1))
    if ! cmp -s "$work/found" "$2"; then
        echo "$1: not the answer due"
        failed=$((failed + 1))
    fi
}

# a program on its samples, whose answers have a suffix
try() {
    program=$1 folder=$2 suffix=$3
    for given in "$folder"/*.path; do
        due=${given%.path}$suffix
        "$program" <"$given" >"$work/found"
        same "$given" "$due"
        # the same through a pipe that brings it in pieces; the program may be done before the last of them
        { { head -c 5 "$given"; sleep 0.02; tail -c +6 "$given"; } 2>"$work/noise" || true; } | "$program" >"$work/found"
        same "$given in pieces" "$due"
    done

    # a byte at a time, and megabytes
    fifty=$folder/good-fifty-4
    for ((i = 1; i <= $(stat -c %s "$fifty.path"); i++)); do tail -c "+$i" "$fifty.path" | head -c 1; done | "$program" >"$work/found"
    same "$folder: a byte at a time" "$fifty$suffix"
    { { cat "$folder/good-alike-6.path"; head -c 4000000 /dev/zero; } 2>"$work/noise" || true; } | "$program" >"$work/found"
    same "$folder: megabytes" "$folder/refused-7-long$suffix"
}

try "$plan" examples/paths .answer
try "$all_orders" examples/orders .text
echo "$count answers of the programs, $failed differ"

# show.py as it is called: it answers everything with status 0 or 1, and never with a stack trace
shown() {
    status=0
    examples/show.py <"$2" >"$work/found" 2>&1 || status=$?
    if [ "$status" -gt 1 ] || grep -q Traceback "$work/found"; then
        echo "$1: show.py fails"
        failed=$((failed + 1))
    fi
}

for given in examples/paths/*; do shown "$given" "$given"; done
for given in examples/paths/good-one-4.*; do
    for ((length = 0; length < $(stat -c %s "$given"); length++)); do
        head -c "$length" "$given" >"$work/cut"
        shown "$given, $length bytes" "$work/cut"
    done
done
# and from within, every cut of every sample, and damage
python3 examples/show_test.py
[ "$failed" = 0 ]
