#!/bin/sh
# Does what docs/RATTLE.md tells a new user of the crates: its commands, in an empty repository. Then it
# proves the crate that they make, as `rt check` does, over the libraries that the gate has proved:
# `rt check` itself takes only libraries that it has built, and would prove them again.
set -eu
top=$(cd "$(dirname "$0")/../.." && pwd)
room=$(mktemp -d)
trap 'rm -rf "$room"' EXIT
cd "$room"
sed -n '/^    touch crates.txt/,/^    END$/s/^    //p' "$top/docs/RATTLE.md" | sed "s|SCRYPT|$top|g" > start.sh
sh -eu start.sh > start.log 2>&1 || { cat start.log; exit 1; }
export PROVED_LIBRARIES="${PROVED_LIBRARIES:-$top/crates}" PYTHONPATH="$top"
check=$(python3 -B -c 'from tools.kit import rattle; print(*rattle.of("check", "app"))')
cd crates/app
# shellcheck disable=SC2086 # words without blanks
$check > check.log 2>&1 || { cat check.log; exit 1; }
grep '^logic=proved' check.log
