#!/usr/bin/env bash
# Runs tasks of gate.mk, even if some fail. The last line is `N passed, M failed`, and `, K skipped` if what
# these tasks need is not installed; the status is 0 if no task failed, and none did not begin because of a
# failure. Before it come the tasks that were skipped, or ran in part, with the packages that they need, and the time.
# Without the kit they say that nothing was proved.
# usage: run.sh            the gate: every task, from nothing; with the kit `rt ci` proves every crate
#        run.sh TARGET..   these tasks, or `documents`, `suites`, `examples`, with the files that are built
set -u
cd "$(dirname "$0")/../.." || exit
results=build/log/results
jobs=${JOBS:-$(($(nproc) + 2))} # with the proofs and what waits for them
gate() { make --no-print-directory -f tools/gate/gate.mk "$@"; }

if [ $# = 0 ]; then
  set -- gate
  export PROVED_LIBRARIES=$PWD/crates # of this run: nothing begins with what an earlier one kept
  echo "Tests everything, and with the kit proves it. What each task prints is in build/log."
  rm -rf build/{gate,log,lib,bin,machine.sh,rust/{workspace,c,target*},native,asan,tsan} crates/*/out/{rlib,libscrypt_c.a}
  for preset in $(python3 -B -m tools.presets names); do rm -rf "build/$preset"; done
  python3 -B -m tools.generate.declarations || exit 1
else
  export BUILT=1
fi
mkdir -p build/log
: > $results
tasks=$(gate tasks OF="$*")
minutes() { printf '%d:%02d' $((SECONDS / 60)) $((SECONDS % 60)); }
while sleep "${EACH:-60}" > /dev/null 2>&1; do
  ended=$(cut -d' ' -f1 $results | grep -cxFf <(tr ' ' '\n' <<< "$tasks"))
  echo "$(minutes) minutes: $ended of $(wc -w <<< "$tasks") tasks have ended"
done &
# shellcheck disable=SC2064 # of this process
trap "kill $! 2> /dev/null" EXIT
gate --keep-going --output-sync=target -j"$jobs" "$@"

passed=0 failed=0 skipped=0 without='' in_part=''
for task in $tasks; do
  read -r status _ needs < <(sed -n "s/^$task //p" $results)
  case $status in
    0) passed=$((passed + 1)) && in_part=$in_part${needs:+"; $task (needs $needs)"} ;;
    77) skipped=$((skipped + 1)) && without="$without; $task (needs $needs)" ;;
    '') failed=$((failed + 1)) && echo "$task: did not begin, since what it needs failed" ;;
    *) failed=$((failed + 1)) && echo "$task: FAILED (build/log/$task.log)" ;;
  esac
done
if grep -q '^proofs ' $results && [[ $without != *"; proofs ("* ]]; then
  # `rt ci` counts the crates and what it ran.
  read -r more _ less < <(sed -nE 's/^([0-9]+) passed, ([0-9]+) failed$/\1 . \2/p' build/log/proofs.log | tail -n 1)
  passed=$((passed + ${more:-0})) failed=$((failed + ${less:-1}))
  if [ $failed = 0 ]; then # what a release has of this commit
    { echo "commit $(git describe --always --dirty --abbrev=40 --exclude '*')"; rt version
      grep -hE '^(== |logic=|rt: [a-z_]+ is kept:)' build/log/{proofs,kit-library}.log; } > build/PROVED.txt
    if grep ^logic= build/PROVED.txt | grep -v ^logic=proved; then failed=1; fi
  fi
fi
if [ -n "$in_part" ]; then echo "in part: ${in_part#; }"; fi
if [ -n "$without" ]; then echo "skipped: ${without#; }"; fi
if [[ $without == *"; proofs ("* ]]; then
  echo "Nothing was proved, since the Rattle kit is not here: this tested the erased crates, and what is built from them."
fi
awk -v all="$(minutes)" '{ used += $3 } END { printf "%s minutes, %.1f CPU-minutes\n", all, used / 60 }' $results
if [ "$skipped" = 0 ]; then skipped=; fi
echo "$passed passed, $failed failed${skipped:+, $skipped skipped}"
[ "$failed" = 0 ]
