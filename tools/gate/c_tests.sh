#!/bin/sh
# Builds the library and its tests by a preset of bindings/c/CMakePresets.json, and runs them.
# usage: c_tests.sh PRESET [OPTION OF CTEST ..]    such as -R NAME
set -eu
cd "$(dirname "$0")/../../bindings/c"
preset=$1 targets="all tests/all"
shift
cmake --preset "$preset"
case $preset in asan | tsan | s390x) # only what the preset tests
  targets=$(ctest --preset "$preset" -N | sed -n 's/.*Test *#[0-9]*: //p') ;;
esac
# shellcheck disable=SC2086 # names without blanks
cmake --build "../../build/$preset" --target $targets -- --quiet
ctest --preset "$preset" -j2 "$@"
