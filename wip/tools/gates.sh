#!/bin/bash
# runs the gate on each of the commits, one after another
for c in "$@"; do
  d=WORK/gate-$c
  [ -d $d ] || { git clone -q REPOSITORY $d; (cd $d && git checkout -q $c); }
  cd $d
  s=$(date +%s)
  ( time nice -n 19 .ci/run ) > TMP/gate-$c.log 2>&1
  echo "exit $? after $(( $(date +%s) - s )) s" >> TMP/gate-$c.log
done
