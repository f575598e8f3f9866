#!/usr/bin/env bash
# usage: prove.sh         runs `rt ci`, and compares what it proved with docs/EVIDENCE.md
#        prove.sh NAME    waits until that run has proved this crate; the libraries are then in crates/*/out/rlib
set -u
cd "$(dirname "$0")/../.." || exit
log=build/log/proofs.log
if [ $# = 1 ]; then
  command -v rt > /dev/null || exit 0 # without the kit nothing is proved, and what waits for it isn't run either
  while read -r line; do
    case $line in "rt: $1 proved" | "rt: $1 is kept:"*) exit 0 ;; "rt ci ended") exit 1 ;; esac
  done < <(tail --pid=$$ -n +1 -F $log 2> /dev/null)
  exit 1
fi
rt ci
status=$?
echo "rt ci ended"
while IFS= read -r listed; do
  crate=${listed%%:*} verdict=${listed#*: }
  found=$(sed -n "/^== $crate\$/,/^rt: $crate /{/^logic=/p}" $log)
  if [ -n "$found" ] && [[ $found != "${verdict% ..}"* ]]; then
    echo "docs/EVIDENCE.md lists another verdict of $crate than this: $found"
    status=1
  fi
done < <(grep '^[a-z_]*: logic=' docs/EVIDENCE.md)
exit $status
