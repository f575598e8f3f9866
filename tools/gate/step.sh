#!/usr/bin/env bash
# Runs a command as a step of the gate or of make. Its output goes to build/log/NAME.log, which a command that has
# nothing to do leaves as it was. One line has the result and the time; if the step failed, the last lines of the log
# come first. If what stands before `:` is no command or file, its package is missing, and nothing is run. A command
# that ran nothing ends with the status 77. Both are skipped: the line names the packages that `tools/lacks` was called
# with. build/log/results gets a line with the name, the status, the CPU-seconds, and the packages.
#
# usage: step.sh NAME [COMMAND:PACKAGE ..] COMMAND ..
#   STEPS   the names of all steps of a command of make, for their numbers
#   EACH    a line says that the step begins and, after each time of so many seconds, that it runs; the prover's progress
#           is shown. Without it there is only the last line
#   LIMIT   the time after which the command and its children are ended, as timeout(1) takes it; without it there is none
set -u
# shellcheck disable=SC2206 # names without blanks
name=$1 log=build/log/$1.log title=$1 missing='' before='' steps=(${STEPS:-})
shift
for at in "${!steps[@]}"; do
  if [ "${steps[at]}" = "$name" ]; then title="step $((at + 1)) of ${#steps[@]}, $name"; fi
done
while [[ $1 == *:* ]]; do
  if ! command -v "${1%%:*}" > /dev/null && ! [ -e "${1%%:*}" ]; then missing="$missing ${1#*:}"; fi
  shift
done
# shellcheck disable=SC2086 # names without blanks
if [ -n "$missing" ]; then set -- sh -c 'tools/lacks "$@"; exit 77' sh "$name" $missing; fi
minutes() { printf '%d:%02d' $(($1 / 60)) $(($1 % 60)); }

clock() {
  trap 'kill $!; exit' TERM
  while sleep "$EACH" & wait $! && kill -0 $$; do echo "$name: runs for $(minutes $SECONDS)"; done
}
# The prover's progress in the log.
progress() {
  local line crate=$name
  while read -r line; do
    if [[ $line =~ ^==\ ([a-z_]+)$ ]]; then crate=${BASH_REMATCH[1]}
    elif [[ $line =~ ^rt:\ [a-z_]+(: its tests are)?\ (proved|is kept) ]]; then echo "$line"
    elif [[ $line =~ ^so\ far:\ ([0-9]+)\ of\ ([0-9]+) ]]; then
      echo "$crate: $((100 * BASH_REMATCH[1] / BASH_REMATCH[2])) % is checked"
    fi
  done < <(tail --pid=$$ -n +1 -F "$log" 2> /dev/null)
}

mkdir -p build/log
export LACKING=$PWD/build/log/$name.lacking
: > "$LACKING"
if [ -s "$log" ]; then mv "$log" "$log.before"; fi
: > "$log"
if [ -n "${EACH:-}" ]; then
  echo "$title: begins"
  progress &
  clock &
fi
# In a process group of its own, which the limit or a signal ends.
run() {
  nice -n "${NICE:-0}" timeout -k 10 "${LIMIT:-0}" "$@" > "$log" 2>&1 &
  task=$!
  trap 'kill $(jobs -p); wait; exit 130' INT TERM HUP
  wait $task
}
TIMEFORMAT='%0U %0S'
{ time run "$@"; } 2> "$LACKING.time"
status=$?
# shellcheck disable=SC2046 # numbers
{ kill $(jobs -p) && wait; } 2> /dev/null
read -r user system < <(tail -n 1 "$LACKING.time")
absent=$(sort -u "$LACKING" | xargs)
rm -f "$LACKING" "$LACKING.time"
echo "$name $status $((user + system)) $absent" >> build/log/results
how="($(minutes $SECONDS), $(minutes $((user + system))) of CPU time)"
if [ $status = 0 ] && ! [ -s "$log" ] && grep -qs '^logic=proved' "$log.before"; then
  mv "$log.before" "$log" && before='nothing to do: '
fi
rm -f "$log.before"

# The last verdict, or how many tests of all parts have passed.
count=$(awk '/^logic=proved functions=/ { sub(/.*functions=/, ""); proved = "proved, " $1 " functions" }
  /^# (pass|fail) [0-9]+$/ { all += $3; right += $2 == "pass" ? $3 : 0 }
  /: [0-9]+ of [0-9]+ as they should be$/ { sub(/.*: /, ""); right += $1; all += $3 }
  /^Ran [0-9]+ tests? in / { right += $2; all += $2 }
  /^OK \(skipped=[0-9]+\)$/ { gsub(/[^0-9]/, ""); right -= $0; all -= $0 }
  /^ok / { right++; all++ }
  /^test result: ok\. [0-9]+ passed/ { right += $4; all += $4 + $6 }
  /tests failed out of [0-9]+$/ { right += $NF - $4; all += $NF }
  /^[0-9]+ passed, [0-9]+ failed/ { right += $1; all += $1 + $3 }
  END { print all ? right " of " all " passed" : proved }' "$log")
case $status in
  0) echo "$title: $before${count:-passed}${absent:+, in part (needs $absent)} $how" ;;
  77)
    echo "$title: skipped (needs ${absent:-what $log names})"
    status=0 ;;
  *) # without the prover's line for each proved function
    if [ $status = 124 ]; then how="after its limit, ${LIMIT:-none}"; fi
    printf '%s\n' "$(grep -v ': proved$' "$log" | tail -n 40)" "$title: FAILED $how" ;;
esac
exit $status
