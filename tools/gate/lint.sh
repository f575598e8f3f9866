#!/bin/sh
# Runs the installed linters and formatters over everything except build output, and names the missing ones.
set -eu
failed=0 room=$(mktemp -d)
trap 'rm -rf "$room"' EXIT
python3 -B -m tools.generate.declarations "$room" # which mypy and gcc read

# The files of a kind, except Rust's in rust/, which rust/build.sh formats, the Debian package of the linter, and its command, which prints nothing if all is well.
lint() {
  kind=$1 package=$2
  shift 2
  if ! command -v "$1" > /dev/null; then
    tools/lacks "$1" "$package"
    return
  fi
  wrong=$(find bindings crates examples rust tools -name "$kind" -not -path '*/out/*' \
    -not -path '*/target/*' -not -path 'rust/*.rs' -exec "$@" {} + 2>&1) || test -n "$wrong" || wrong="$1 failed"
  if test -z "$wrong"; then echo "ok $1"; else echo "$wrong"; failed=1; fi
}

lint '*.py' pyflakes3 pyflakes3
# Not: what a sourced file assigns, or reads; and the code of other languages, in single quotes.
lint '*.sh' shellcheck shellcheck --exclude=SC1090,SC2034,SC2154,SC2016
export MYPYPATH=bindings/python
lint pyproject.toml mypy mypy --no-error-summary --cache-dir=/dev/null --package scrypt_c --config-file
lint '*.c' cppcheck cppcheck --quiet --error-exitcode=1 --enable=warning,performance,portability --suppress='*:*/tests/*'
# library.c includes most of the others.
for it in bindings/c/library.c bindings/cli/terminal.c bindings/drop_in/drop_in.c; do
  gcc -std=gnu99 -O2 -Wall -Wextra -Werror -fanalyzer '-DLIBRARY_VERSION="1"' -I"$room" -Ibindings/c -c "$it" \
    -o "$room/made" && echo "ok gcc -fanalyzer $it" || failed=1
done
lint '*.go' golang-go gofmt -l
lint '*.rs' rustfmt rustfmt --check --edition 2021 --config-path bindings/rust
rattle=$(dirname "$(rt doc 2> /dev/null)")/bin/rattle
lint '*.rt' the-Rattle-kit "$rattle" fmt --check
lint '*.antt' the-Rattle-kit "$rattle" fmt --check
# A name beside a file of mktemp is free to every user of the machine, a name in a folder of mktemp is not.
without=$(find bindings examples rust tools -name '*.sh' -exec grep -nE '\$\(mktemp\)' {} + || true)
test -z "$without" || { echo "mktemp without -d: $without"; failed=1; }
# Go may free a hasher during the last call of a method that reads it, unless something after that needs the hasher.
freed=$(awk '/^func / { method = $0; reads = keeps = 0 } /h\.shared\.c[,).]/ { reads = 1 }
  /KeepAlive\(h\.shared\)|h\.run\(|h\.shared\.refused/ { keeps = 1 } /^}/ && reads && !keeps { print method }' bindings/go/*.go)
test -z "$freed" || { echo "no KeepAlive in $freed"; failed=1; }
exit $failed
