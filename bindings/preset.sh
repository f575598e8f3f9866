# shellcheck shell=sh
# For tests, from the top of the repository: facts about the machine that PRESET names
# (c/CMakePresets.json; by default native), which CMake wrote next to the library. Sets
#   build      the folder of what is built, which has lib and bin
#   system     linux or windows
#   machine    the processor, as Linux calls it
#   CC         its compiler
#   emulator   the command that runs what is built, or nothing
#   bundled    the name of the static library in the folders of the Go module and of the Rust crate
PRESET=${PRESET:-native} top=$PWD
build=build/$PRESET
if [ "$PRESET" = native ]; then build=build; fi
if ! [ -e "$build/machine.sh" ]; then
  echo "nothing is built for $PRESET: make lib PRESET=$PRESET" >&2
  exit 1
fi
. "./$build/machine.sh"

# Wine keeps its Windows in the folder that WINEPREFIX names. Without its debugger a program that crashes
# ends with a status that says so; with it that is 0 at times.
if [ "$system" = windows ]; then
  export WINEDEBUG="${WINEDEBUG:--all}" WINEDLLOVERRIDES="${WINEDLLOVERRIDES:-winedbg.exe=d}"
fi

# For tests: sets lib, the folder of the libraries, and room, a folder that is removed at exit.
begin_test() {
  lib=$PWD/$build/lib
  room=$(mktemp -d)
  # Wine's server writes to the folder until some seconds after the last program.
  trap 'chmod -R u+w "$room"; rm -rf "$room" 2> /dev/null || { sleep 10; rm -rf "$room"; }' EXIT
  if [ "$system" = windows ]; then export WINEPREFIX="${WINEPREFIX:-$room/wine}"; fi
}

# Whether a command is here, or else which package brings it, and what was left out.
has() {
  command -v "$1" > /dev/null && return
  "$top/tools/lacks" "$@"
  return 1
}
