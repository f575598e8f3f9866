#!/bin/sh
# The instructions that each call executes for p of 1 and of 4, as parts of p times those of scrypt_key
# for p of 1: at most 1.03 if it derives, which it does once, 0.15 and 0.06 if it begins or finishes a
# derivation, and else 0.02.
# usage: test_work.sh PROGRAM ROOM
set -eu
rm -f "$2"/counts.*
for p in 1 4; do valgrind -q --tool=callgrind --callgrind-out-file="$2/counts.$p" "$1" "$p"; done
awk '
  function derives(name) {
    return name ~ /^scrypt_((hasher_)?(key|verify|hash)(_(limited|unlimited|with_salt|thin|batch|with_buffers|without_hash))*|derivation_run)$/
  }
  function max_part(name) { return derives(name) ? 1.03 : name ~ /_new$/ ? 0.15 : name ~ /_finish$/ ? 0.06 : 0.02 }
  FNR == 1 { p = FILENAME ~ /counts\.4/ ? 4 : 1 }
  /^desc: Trigger/ { name = substr($0, index($0, "Request") + 9) }
  /^totals/ { count[name, p] = $2 }
  END {
    once = count["scrypt_key", 1]
    wrong = once < 1000000 || once > 3200000 # 2.0 million on x86-64-v3, 2.6 on x86-64-v2
    if (wrong) print "scrypt_key: " once " instructions"
    for (it in count) {
      split(it, call, SUBSEP)
      part = count[it] / (once * call[2])
      if (part > max_part(call[1]) || derives(call[1]) && part < 0.4) {
        printf "%s, p of %d: %d instructions, %.2f\n", call[1], call[2], count[it], part
        wrong = 1
      }
    }
    exit wrong
  }' "$2"/counts.1.* "$2"/counts.4.*
