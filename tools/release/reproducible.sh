#!/bin/sh
# Checks that packages are reproducible: builds everything again in a clone in another folder, with another umask, time
# zone and language, makes build/dist there, and compares all files byte by byte.
# usage: reproducible.sh [PRESET..]    as dist.sh was called
set -eu
cd "$(dirname "$0")/../.."
room=$(mktemp -d)
trap 'rm -rf "$room"' EXIT
again=$room/an/other/folder
git clone --quiet . "$again"
if [ -e build/PROVED.txt ]; then mkdir "$again/build" && cp build/PROVED.txt "$again/build"; fi
export PATH="$PATH:${CARGO_HOME:-$HOME/.cargo}/bin" RUSTUP_HOME="${RUSTUP_HOME:-$HOME/.rustup}"
export TZ=Asia/Kathmandu LC_ALL=C.UTF-8 HOME="$room"
build() {
  umask 027
  cd "$again"
  make run
  python3 -B -m bindings.js.build
  # shellcheck disable=SC2048 # names without blanks
  for PRESET in ${*:-native $(python3 -m tools.presets packed)}; do make lib PRESET="$PRESET"; done
  tools/release/dist.sh "$@"
}
(set -e; build "$@") > "$room/log" 2>&1 || { cat "$room/log"; exit 1; }
diff -r build/dist "$again/build/dist"
echo "the same byte by byte: $(find build/dist -type f | wc -l) files"
