#!/bin/sh
# Tests the program for another machine, in its emulator.
# usage: PRESET=NAME program.sh
set -eu
cd "$(dirname "$0")/../.."
. bindings/preset.sh
# shellcheck disable=SC2086 # words without blanks
CC=$CC exec python3 -B -m tools.tests.program $emulator "$build/bin/scrypt_tool"
