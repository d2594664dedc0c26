#!/bin/bash
# waits for a process to end, then the gate on each commit, one after another
while kill -0 $1 2>/dev/null; do sleep 5; done
shift
exec bash WORK/briefs/gates.sh "$@"
